# Calls and returns: the sum of 3, 2 and 1 by recursion, with a stack in memory, and a call through a register. Where a
# return goes is known only when it runs, so the unit after it often has the wrong task.

.task MAIN   create=$4,$29,$31 targets=SUM
.task SUM    create=$2 targets=DEEPER,BACK,FIRST
.task DEEPER create=$4,$29,$31 targets=SUM
.task BACK   create=$2,$4,$29,$31 targets=BACK,FIRST
.task FIRST  create=$25,$31 targets=DOUBLE
.task DOUBLE create=$2 targets=LAST
.task LAST   create=- targets=-

MAIN:
        li    $29, 0x10010100   !f
        li    $4, 3             !f
        jal   SUM               !f !s
FIRST:
        out   $2
        la    $25, DOUBLE       !f
        jalr  $25               !f !s
LAST:
        out   $2
        halt
SUM:
        bgtz  $4, DEEPER        !st
        move  $2, $0            !f
        jr    $31               !s
DEEPER:
        addiu $29, $29, -8      !f
        sw    $31, 0($29)
        sw    $4, 4($29)
        addiu $4, $4, -1        !f
        jal   SUM               !f !s
BACK:
        lw    $31, 0($29)       !f
        lw    $4, 4($29)        !f
        addu  $2, $2, $4        !f
        addiu $29, $29, 8       !f
        jr    $31               !s
DOUBLE:
        addu  $2, $2, $2        !f
        jr    $31               !s
