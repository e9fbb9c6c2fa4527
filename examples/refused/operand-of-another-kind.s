.task A create=$8 targets=-
A: addu $8,$8,1 !f
   lw $9,$8
   mult $hi,$8
   halt
