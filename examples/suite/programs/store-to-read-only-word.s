# The run ends in the trap 4 ReadOnly, at a store of a word.

.task START create=$8 targets=TRAP
.task TRAP  create=$9 targets=LAST
.task LAST  create=$9 targets=-

.rodata
TABLE:  .word 5

.text
START:
        la    $8, TABLE         !f !s
TRAP:
        addiu $9, $0, 6         !f
        sw    $9, 0($8)
        nop                     !s
LAST:
        lw    $9, 0($8)
        out   $9
        halt
