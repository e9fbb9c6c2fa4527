.task A create=- targets=B
.task B create=- targets=-
A:
B:
   halt
