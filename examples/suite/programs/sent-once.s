# A release of a register that a forward bit has sent: it sends nothing again.

.task START create=$8,$9 targets=STEP
.task STEP  create=$8,$10 targets=STEP,DONE
.task DONE  create=- targets=-

START:
        addiu $8, $0, 3         !f
        addiu $9, $0, 2         !f
        release $8, $9          !s
STEP:
        addiu $8, $8, -1        !f
        release $8
        addu  $10, $10, $8      !f
        release $8, $10
        bne   $8, $0, STEP      !s
DONE:
        out   $10
        halt
