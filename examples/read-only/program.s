# A load of read-only data may be made ahead of the oldest task.
#
# A always goes to C. A unit that was given B can load the word at K at once,
# since no step changes read-only data. Its second load, at address 8, is outside
# of read-only data and has to wait, as the load of `wrong-path-load` has.

.task A create=$8 targets=B,C
.task B create=$9,$10 targets=C
.task C create=- targets=-

.rodata
K:      .word 7

.text
A:
        addiu $8, $0, 1   !f
        bne   $8, $0, C   !s
B:
        la    $9, K
        lw    $9, 0($9)   !f
        lw    $10, 1($9)  !f !s
C:
        out   $8
        halt
