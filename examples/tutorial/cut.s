# The loop cut into tasks, one for each iteration. One mark is wrong.

.task LOOP create=$8,$10,$11 targets=LOOP,DONE
.task DONE create=- targets=-

LOOP:
        addiu $8, $8, 1
        sll   $9, $8, 1
        addu  $10, $10, $9
        slti  $11, $8, 4
        bne   $11, $0, LOOP  !s
DONE:
        out   $10
        halt
