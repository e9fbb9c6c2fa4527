# The run ends in the trap 4 ReadOnly. The store at an odd address would be 1 Unaligned; a byte is always aligned.

.task START create=$8,$9 targets=TRAP
.task TRAP  create=$9 targets=LAST
.task LAST  create=- targets=-

.rodata
TABLE:  .word 5

.text
START:
        la    $8, TABLE         !f
        lw    $9, 0($8)         !f !s
TRAP:
        out   $9
        sb    $9, 3($8)
        lw    $9, 0($8)         !f
        nop                     !s
LAST:
        out   $9
        halt
