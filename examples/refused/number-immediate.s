.task A create=$8 targets=-
A: addiu $8,$8,32768 !f
   sll $9,$8,32
   halt
