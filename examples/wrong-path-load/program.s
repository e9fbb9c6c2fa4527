# A load on a path that is never taken must not trap.
#
# A always goes to C. A unit that was given B by a wrong prediction holds a
# load of a word at address 1, which is not aligned; it must wait until B is
# the oldest task, and that never happens.

.task A create=$8 targets=B,C
.task B create=$11 targets=C
.task C create=- targets=-

A:
        addiu $8, $0, 1   !f
        bne   $8, $0, C   !s
B:
        lw    $11, 1($0)  !f !s
C:
        out   $8
        halt
