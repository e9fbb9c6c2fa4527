.task A create=$8 targets=-
A: beq $8,$0,D !s
   halt
.data
D: .word 1
