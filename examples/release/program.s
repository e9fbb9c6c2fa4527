# A register that one path writes and the other releases.
#
# The create mask of A has $8 because one path writes it. The path over S
# does not, so it releases $8: successors get the value from before the task.

.task A create=$8,$9 targets=B
.task B create=- targets=-

A:
        addiu $9, $0, 5   !f
        bne   $9, $0, S
        addiu $8, $0, 1   !f
        j     B           !s
S:
        release $8        !s
B:
        out   $8
        halt
