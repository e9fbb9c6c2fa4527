.task A create=$8 targets=-
A: halt
.data
.space 65536
.byte 1
