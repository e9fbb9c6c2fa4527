.task A create=$8 targets=-
A: halt
.data
B: addu $8,$8,$9
.text
   .word 1
