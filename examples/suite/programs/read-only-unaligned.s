# A load of read-only data that is not aligned: it cannot run ahead, and waits until its task is the head. There it traps.

.task START create=$8,$9 targets=TRAP
.task TRAP  create=$9,$10 targets=LAST
.task LAST  create=$11 targets=-

.rodata
WORDS:  .word 0x01020304, 0x05060708

.text
START:
        la    $8, WORDS         !f
        addiu $9, $0, 7
        addiu $9, $9, 1
        addiu $9, $9, 1         !f !s
TRAP:
        lw    $10, 4($8)        !f      # this one runs ahead
        lh    $9, 3($8)         !f
        nop                     !s
LAST:
        addiu $11, $8, 1
        out   $11
        halt
