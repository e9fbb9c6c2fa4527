.task A create=$8 targets=B
.task B create=$9 targets=C
.task C create=- targets=-
A: addiu $8,$0,1 !f !s
B: addiu $9,$0,2 !f !s
C: halt
