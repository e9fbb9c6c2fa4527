# A jalr that reads and writes the same register: it goes to the old value, and leaves its own return address there.

.task START  create=$8,$9 targets=CALLEE
.task CALLEE create=$10 targets=BACK
.task BACK   create=$8 targets=-

START:
        la    $8, CALLEE
        addiu $9, $0, 5         !f
        jalr  $8, $8            !f !s
BACK:
        addu  $8, $8, $10
        out   $8
        halt
CALLEE:
        addu  $10, $9, $8       !f
        jr    $8                !s
