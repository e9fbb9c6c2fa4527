.task A create=- targets=B
.task B create=$9 targets=D
.task C create=- targets=-
A: addiu $8,$0,1 !f !s
B: addiu $9,$0,2 !s
C: out $9
D: halt
