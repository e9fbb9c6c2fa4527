.task A create=$31 targets=-
A: la $31,D
jr $31 !s
halt
D: out $31
halt
