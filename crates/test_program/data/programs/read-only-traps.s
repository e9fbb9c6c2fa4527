.task A create=$8 targets=B,C
.task B create=$9,$10 targets=C
.task C create=- targets=-
.rodata
K: .word 7
.text
A: addiu $8,$0,1 !f
bne $8,$8,C !s
B: la $9,K
lw $9,0($9) !f
lw $10,1($9) !f !s
C: out $8
halt
