.task A create=$1,$8 targets=A,B
A: subi $8,$8,1 !f
   mul $8,$8,$9
.task B create=- targets=-
B: .globl A
   halt
