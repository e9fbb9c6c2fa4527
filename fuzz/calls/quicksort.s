# Quicksort, recursive, with a stack in data memory.
.start MAIN
.task MAIN  create=$4,$5,$29,$31,$16 targets=QS
.task AFTER create=$8,$9,$16 targets=SHOW
.task SHOW  create=$8,$9,$10 targets=SHOW,END
.task END   create=- targets=-
.task QS    create=$2,$8,$9,$10,$11,$12,$13,$29 targets=PART,RET
.task PART  create=$8,$9,$10,$11,$12,$13 targets=PART,SPLIT
.task SPLIT create=$4,$5,$8,$9,$12,$13,$17,$18,$31 targets=QS
.task RIGHT create=$4,$5,$8,$31 targets=QS
.task DONE  create=$31,$29 targets=AFTER,RIGHT,DONE
.task RET   create=$29 targets=AFTER,RIGHT,DONE
.data
arr: .word 5,3,9,-2,7,7,0,12
end:
.text
MAIN:   lui   $29, 0x1001
        ori   $29, $29, 0xfff0 !f
        la    $4, arr      !f
        la    $5, end
        addiu $5, $5, -4   !f
        release $16
        jal   QS           !f !s
AFTER:  la    $8, arr      !f
        la    $9, end      !f
        move  $16, $8      !f !s
SHOW:   lw    $9, 0($8)    !f
        out   $9
        addiu $8, $8, 4    !f
        la    $10, end
        bne   $8, $10, SHOW !s
END:    halt
# qs(lo=$4, hi=$5)
QS:     addiu $29, $29, -16 !f
        slt   $2, $4, $5    !f
        beq   $2, $0, RET   !st
        sw    $31, 0($29)
        sw    $4, 4($29)
        sw    $5, 8($29)
        lw    $10, 0($5)    !f   # pivot
        move  $8, $4             # i
        move  $9, $4        !s   # j
PART:   lw    $11, 0($9)    !f
        slt   $12, $11, $10 !f
        beq   $12, $0, NEXT
        lw    $13, 0($8)
        sw    $13, 0($9)
        sw    $11, 0($8)
        addiu $8, $8, 4
NEXT:   addiu $9, $9, 4     !f
        bne   $9, $5, PART  !s
SPLIT:  lw    $12, 0($8)    !f
        lw    $13, 0($5)    !f
        sw    $13, 0($8)
        sw    $12, 0($5)
        sw    $8, 12($29)
        addiu $5, $8, -4    !f
        jal   QS            !f !s
RIGHT:  lw    $8, 12($29)   !f
        lw    $5, 8($29)    !f
        addiu $4, $8, 4     !f
        jal   QS            !f !s
DONE:   lw    $31, 0($29)   !f
        addiu $29, $29, 16  !f
        jr    $31           !s
RET:    addiu $29, $29, 16  !f
        jr    $31           !s
