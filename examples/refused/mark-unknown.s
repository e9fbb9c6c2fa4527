.task A create=$8 targets=-
A: addiu $8,$8,1 !forward
   halt
