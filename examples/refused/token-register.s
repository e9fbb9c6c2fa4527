.task A create=$8 targets=-
A: addiu $8,$40,1 !f
   halt
