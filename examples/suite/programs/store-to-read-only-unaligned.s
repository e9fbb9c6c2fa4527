# A store to read-only data at an odd address: the trap is 1 Unaligned.

.task START create=$8 targets=TRAP
.task TRAP  create=$9 targets=LAST
.task LAST  create=- targets=-

.rodata
TABLE:  .word 5

.text
START:
        la    $8, TABLE         !f !s
TRAP:
        addiu $9, $0, 6         !f
        sh    $9, 1($8)
        nop                     !s
LAST:
        out   $9
        halt
