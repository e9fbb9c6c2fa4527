.start INIT
.task INIT create=$8,$9 targets=A
.task A create=$8,$9,$10,$11,$12 targets=A,B
.task B create=- targets=-
INIT:   li    $9,0 !f
        li    $8,0 !f !s
A:      addiu $8,$8,1 !f
        andi  $10,$8,7 !f
        beq   $10,$0,UPD
        nop
        j     SKIP
UPD:    addiu $9,$9,1 !f
SKIP:   slti  $11,$8,40 !f
        addu  $12,$9,$9 !f
        nop
        nop
        bne   $11,$0,A !s
B:      out   $9
        halt
