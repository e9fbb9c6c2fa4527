# An address that is neither aligned nor in memory: the trap is 1 Unaligned.

.task START create=$8 targets=TRAP
.task TRAP  create=$9 targets=LAST
.task LAST  create=$10 targets=-

START:
        li    $8, 0x20000002    !f !s
TRAP:
        addiu $9, $8, 1         !f
        sw    $9, 0($8)                 # there is no memory, and a word has four bytes
        nop                     !s
LAST:
        addiu $10, $8, 1
        out   $10
        halt
