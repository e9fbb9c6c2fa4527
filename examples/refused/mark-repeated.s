.task A create=$8 targets=-
.text !f
A: addiu $8,$8,1 !f !f
   beq $8,$9,A !st !sn
   halt
