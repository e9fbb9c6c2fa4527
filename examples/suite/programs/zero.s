# Register 0 as the destination of each class of instructions: what it gets is lost, and nothing is sent.

.task START create=$8,$9,$hi,$lo targets=STEP
.task STEP  create=$10,$31,$hi,$lo targets=CALLEE
.task CALLEE create=$11 targets=DONE
.task DONE  create=- targets=-

.rodata
WORD:   .word 0xfedcba98

.text
START:
        la    $8, WORD          !f
        addiu $9, $0, -7        !f
        mult  $9, $9          !f
        addu  $0, $9, $9
        subu  $0, $8, $9
        nor   $0, $9, $9        !s
STEP:
        addiu $0, $9, 5
        slti  $0, $9, 5
        xori  $0, $9, 5
        lui   $0, 5
        sll   $0, $9, 5
        srav  $0, $9, $8
        lw    $0, 0($8)
        lb    $0, 1($8)
        mult  $9, $9          !f
        mfhi  $0
        mflo  $0
        addu  $10, $0, $0       !f
        la    $31, CALLEE       !f
        jalr  $0, $31           !s
CALLEE:
        addu  $11, $10, $0      !f
        j     DONE              !s
DONE:
        out   $0
        out   $11
        out   $10
        halt
