# A slip in a word that stands alone on its line, and a label without its colon.
.task A create=- targets=-
A:  hlat
DONE
B   halt
