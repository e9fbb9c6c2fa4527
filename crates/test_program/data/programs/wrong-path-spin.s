.task A create=- targets=B,C
.task B create=- targets=-
.task C create=- targets=-
A: beq $0,$0,C !s
B: j B
C: halt
