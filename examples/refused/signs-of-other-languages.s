# Comments, letters and strings of other languages.
.task A create=$8 targets=A
A:  nop ; a comment
    nop // a comment
    li $8,'a'
    addiu $8,$8,1 !F
.data
    .byte "abc"
