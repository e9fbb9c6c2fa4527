.task A create=$8 targets=B,C
.task B create=- targets=D
.task C create=- targets=D
.task D create=- targets=-
A: lui $8,3
L: addiu $8,$8,-1
bne $8,$0,L
release $8
bne $0,$0,C !s
B: j D !s
C: nop !s
D: halt
