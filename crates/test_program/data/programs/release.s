.task A create=$8,$9 targets=B
.task B create=- targets=-
A: addiu $9,$0,5 !f
bne $9,$0,S
addiu $8,$0,1 !f
j B !s
S: release $8 !s
B: out $8
halt
