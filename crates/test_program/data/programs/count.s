.start A
.task A create=$8,$9,$10 targets=A,B
.task B create=- targets=-
A:
addiu $8,$8,1 !f
addu $9,$9,$8 !f
slti $10,$8,4
bne $10,$0,A !s
B:
out $9
halt
