# The nearest word that takes these operands, or the word in small letters; a number and a sign are no label.
.task A create=$8 targets=A
A:  addui $8,$8,1
    ADDIU $8,$8,1
1:  nop
:   nop
.data
    nop
    .wrod 5
