# Functions that call functions: one saves its return address in its frame, one in a register, one ends in a tail call.
.start MAIN
.task MAIN   create=$4,$16,$29,$31 targets=SQUARES
.task SHOWN  create=$4,$31 targets=TWICE
.task END    create=- targets=-
.task SQUARES create=$8,$16,$17,$29,$31 targets=TIMES
.task ROUND  create=$16,$17,$4,$5,$31 targets=TIMES,DONE
.task DONE   create=$2,$16,$17,$29,$31 targets=SHOWN
.task NEXT   create=- targets=ROUND
.task TIMES  create=$2,$8,$9,$10 targets=ROUND,NEXT,OUTER
.task TWICE  create=$4,$5,$15,$31 targets=TIMES
.task OUTER  create=$4,$31 targets=PRINT
.task PRINT  create=- targets=END
.text
MAIN:   li    $29, 0x10010100 !f
        li    $4, 4 !f
        release $16
        jal   SQUARES !f !s
SHOWN:  move  $4, $2 !f
        out   $2
        jal   TWICE !f !s
END:    halt
# the sum of the squares up to $4
SQUARES: addiu $29, $29, -12 !f
        sw    $31, 0($29)
        sw    $16, 4($29)
        sw    $17, 8($29)
        move  $16, $4 !f
        move  $17, $0 !f
        move  $8, $4 !f
        jal   TIMES !f !s
ROUND:  addu  $17, $17, $2 !f
        addiu $16, $16, -1 !f
        move  $4, $16 !f
        move  $5, $16 !f
        beq   $16, $0, DONE !st
        jal   TIMES !f !s
NEXT:   j     ROUND !s
DONE:   move  $2, $17 !f
        lw    $31, 0($29) !f
        lw    $16, 4($29) !f
        lw    $17, 8($29) !f
        addiu $29, $29, 12 !f
        jr    $31 !s
# $2 = $4 * $4
TIMES:  move  $8, $4
        move  $9, $0
        move  $10, $4 !f
again:  addu  $9, $9, $10
        addiu $8, $8, -1
        bgtz  $8, again
        move  $2, $9 !f
        release $8, $9
        jr    $31 !s
# prints twice $4 squared: its return address is in $15
TWICE:  move  $15, $31 !f
        addu  $4, $4, $4 !f
        jal   TIMES !f !s
OUTER:  move  $4, $2 !f
        move  $31, $15
        j     PRINT !s
# prints $4
PRINT:  out   $4
        jr    $15 !s
