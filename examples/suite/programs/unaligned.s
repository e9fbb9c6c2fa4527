# The run ends in the trap 1 Unaligned, in the second task, with later tasks ahead of it.

.task START create=$8 targets=TRAP
.task TRAP  create=$9 targets=LAST
.task LAST  create=$10 targets=-

START:
        li    $8, 0x10010001    !f !s
TRAP:
        lb    $9, 0($8)
        lh    $9, 0($8)         !f      # at an odd address
        nop                     !s
LAST:
        addiu $10, $8, 1
        out   $10
        halt
