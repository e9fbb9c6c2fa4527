# The loop again. The number of the iteration is forwarded, so the next one can begin.

.task LOOP create=$8,$9,$10,$11 targets=LOOP,DONE
.task DONE create=- targets=-

LOOP:
        addiu $8, $8, 1      !f
        sll   $9, $8, 1
        addu  $10, $10, $9
        slti  $11, $8, 4
        bne   $11, $0, LOOP  !s
DONE:
        out   $10
        halt
