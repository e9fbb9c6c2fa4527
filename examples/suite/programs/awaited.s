# Registers that come late, one after another: each kind of instruction that reads registers waits for one of them.

.start FIRST
.task FIRST  create=$2,$3,$4,$5,$6,$7,$8,$9,$10,$11,$12,$13,$14,$hi,$lo targets=SECOND
.task SECOND create=$15,$31 targets=THIRD
.task THIRD  create=$10 targets=FOURTH
.task FOURTH create=- targets=FIFTH
.task FIFTH  create=$16,$hi,$lo targets=END
.task END    create=- targets=-

.rodata
WORD:   .word 77
.data
CELL:   .word 0

.text
FIRST:
        addiu $2, $0, 2         !f
        addiu $3, $0, 3         !f
        addiu $4, $0, 4         !f
        addiu $5, $0, -5        !f
        la    $6, WORD          !f
        addiu $7, $0, 7         !f
        addiu $8, $0, 2         !f
        addiu $9, $0, 9         !f
        addiu $10, $0, 10       !f
        la    $11, THIRD        !f
        addiu $12, $0, 12       !f
        la    $13, CELL         !f
        mult  $2, $5            !f
        addiu $14, $0, 14       !f !s
SECOND:
        addu  $15, $0, $2
        sltiu $15, $3, 9
        sllv  $15, $2, $4
        lw    $15, 0($6)
        beq   $2, $7, SKIP
        bne   $2, $8, SKIP
SKIP:   blez  $9, SKIP
        addiu $15, $0, 15       !f
        jalr  $11               !f !s
THIRD:
        release $10             !s
FOURTH:
        sw    $12, 0($13)       !s
FIFTH:
        mflo  $16
        multu $5, $14           !f
        out   $14
        addu  $16, $16, $14     !f !s
END:
        halt
