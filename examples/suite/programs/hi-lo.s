# HI and LO travel like other registers: a product with !f sends both; a product without is drained; mthi and mtlo send
# one each; on one path both are released.

.task PRODUCT create=$8,$32,$33 targets=ADD
.task ADD     create=$9,$10 targets=CHOOSE
.task CHOOSE  create=$11,$32,$33 targets=REPLACE
.task REPLACE create=$32,$33 targets=READ
.task READ    create=$12,$13,$14 targets=PRODUCT,LAST
.task LAST    create=$9 targets=-

PRODUCT:
        addiu $8, $8, -3        !f
        multu $8, $8            !f
        nop                     !s
ADD:
        mflo  $9                !f
        mfhi  $10               !f !s
CHOOSE:
        andi  $11, $8, 1        !f
        bne   $11, $0, KEEP
        mult  $8, $9                    # no forward bit
        j     REPLACE           !s
KEEP:
        release $hi, $lo
        j     REPLACE           !s
REPLACE:
        mthi  $9                !f
        mtlo  $10                       # no forward bit
        nop                     !s
READ:
        mfhi  $12               !f
        mflo  $13               !f
        slti  $14, $8, -9       !f
        beq   $14, $0, PRODUCT  !s
LAST:
        out   $9
        out   $10
        out   $12
        out   $13
        mfhi  $9
        halt
