.task A create=$8 targets=B,C
.task B create=- targets=D
.task C create=- targets=D
.task D create=$9 targets=-
A: addiu $8,$0,1 !f
bne $8,$0,C !s
B: j D !s
C: nop !s
D: addiu $9,$0,7 !f
out $9
halt
