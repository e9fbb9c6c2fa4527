.start A
.task A create=- targets=A,B
.task B create=- targets=-
A:
addiu $8,$8,1
addu $9,$9,$8
slti $10,$8,4
bne $10,$0,A !s
B:
out $9
halt
