# Wrong paths: a loop that never ends, a load that would trap, a store and an output. No run takes them, but units that
# were given them work there until they are squashed, and nothing of it may be seen.

.start START
.task START create=$8,$16 targets=CHOOSE
.task CHOOSE create=$9 targets=SPIN,RIGHT,TRAP
.task SPIN  create=$10 targets=-
.task TRAP  create=$11 targets=STORE
.task STORE create=$12 targets=SPEAK
.task SPEAK create=$13 targets=-
.task RIGHT create=$8,$14 targets=CHOOSE,LAST,STORE
.task LAST  create=$12 targets=-

.data
CELL:   .word 11

.text
START:
        addiu $8, $0, 0         !f
        la    $16, CELL         !f !s
CHOOSE:
        sltiu $9, $8, 100       !f
        bne   $9, $0, RIGHT     !st     # always
        bltz  $8, TRAP          !st
        j     SPIN              !s
SPIN:
        addiu $10, $10, 1
        j     SPIN
TRAP:
        addiu $11, $0, 3
        lw    $11, 0($11)       !f      # not aligned: waits, and is squashed
        nop                     !s
STORE:
        addiu $12, $0, 99       !f
        sw    $12, 0($16)               # waits, and is squashed
        nop                     !s
SPEAK:
        addiu $13, $0, 13       !f
        out   $13                       # waits, and is squashed
        halt
RIGHT:
        addiu $8, $8, 1         !f
        sltiu $14, $8, 4        !f
        bne   $14, $0, CHOOSE   !st
        bltz  $8, STORE         !st
        nop                     !s
LAST:
        lw    $12, 0($16)
        out   $12                       # still 11
        halt
