# The run ends in the trap 2 OutOfRange, at a load of the program's own code.

.task START create=$8,$9 targets=TRAP
.task TRAP  create=$9,$10 targets=LAST
.task LAST  create=- targets=-

START:
        lui   $8, 0x0040        !f
        addiu $9, $0, 7         !f !s
TRAP:
        addiu $10, $9, 1        !f
        lw    $9, 0($8)         !f      # the first instruction is there
        nop                     !s
LAST:
        out   $9
        halt
