.task A create=- targets=-
A: out $8
jr $31
