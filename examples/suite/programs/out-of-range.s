# The run ends in the trap 2 OutOfRange, at a store one word after data memory.

.task START create=$8 targets=FILL
.task FILL  create=$8,$9 targets=FILL,LAST
.task LAST  create=- targets=-

START:
        li    $8, 0x1001fff4    !f !s
FILL:
        addiu $8, $8, 4         !f
        sw    $8, 0($8)
        lw    $9, 0($8)         !f
        bne   $9, $0, FILL      !s
LAST:
        out   $9
        halt
