.task A create=$8,$hi,$lo targets=B
.task B create=$9 targets=-
A: addiu $8,$0,-2 !f
mult $8,$8 !f !s
B: mfhi $9
out $9
mflo $9 !f
out $9
halt
