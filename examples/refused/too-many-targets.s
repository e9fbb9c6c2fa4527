.task A create=- targets=A,A,A,A,A,A,A,A,A,A,A,A,A,A,A,A,A
A: halt
