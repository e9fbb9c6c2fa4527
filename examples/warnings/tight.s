# The same program when the help of each warning is followed.

.task A create=$8,$9 targets=B
.task B create=- targets=-

A:
        addiu $9, $0, 1   !f
        beq   $9, $0, skip
        addiu $8, $0, 2   !f
skip:
        nop
        j     B           !s
B:
        out   $8
        halt
