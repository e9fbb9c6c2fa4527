# A call of one of three functions through a table of branches, and a loop that calls.
.start MAIN
.task MAIN  create=$16,$17,$20 targets=LOOP
.task LOOP  create=$4,$8,$31 targets=CHOOSE
.task BACK  create=$16,$17,$20 targets=LOOP,END
.task END   create=- targets=-
.task CHOOSE create=$8 targets=ADDS,SUBS,HALVES
.task ADDS  create=$2 targets=BACK
.task SUBS  create=$2 targets=BACK
.task HALVES create=$2 targets=BACK
.rodata
codes:  .byte 0,1,2,1,0,2,2,1
.text
MAIN:   la    $16, codes !f
        li    $17, 8 !f
        li    $20, 100 !f !s
LOOP:   lbu   $8, 0($16) !f
        move  $4, $20 !f
        jal   CHOOSE !f !s
BACK:   move  $20, $2 !f
        out   $2
        addiu $16, $16, 1 !f
        addiu $17, $17, -1 !f
        bne   $17, $0, LOOP !s
END:    out   $20
        halt
CHOOSE: beq   $8, $0, ADDS !st
        addiu $8, $8, -1 !f
        bne   $8, $0, HALVES !s
SUBS:   addiu $2, $4, -3 !f
        jr    $31 !s
ADDS:   addiu $2, $4, 7 !f
        jr    $31 !s
HALVES: sra   $2, $4, 1 !f
        jr    $31 !s
