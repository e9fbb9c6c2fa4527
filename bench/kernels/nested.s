# Three nested loops: sums and bit operations in registers alone.
# The task CELL is one round of the middle loop with all of the innermost one.

.task MAIN create=- targets=ROW
.task ROW  create=- targets=CELL
.task CELL create=- targets=CELL,NEXT
.task NEXT create=- targets=ROW,DONE
.task DONE create=- targets=-

MAIN:
        li    $16, 0            # the sum
        li    $8, 100       !s
ROW:
        li    $9, 100       !s
CELL:
        li    $10, 24
INNER:
        addu  $16, $16, $10
        xor   $16, $16, $9
        addiu $10, $10, -1
        bne   $10, $0, INNER
        addiu $9, $9, -1
        bne   $9, $0, CELL  !s
NEXT:
        addiu $8, $8, -1
        bne   $8, $0, ROW   !s
DONE:
        out   $16
        halt
