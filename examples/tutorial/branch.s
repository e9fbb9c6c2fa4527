# Prints the larger of the numbers 7 and 3. With SECOND predicted, a wrong task runs until CHOOSE ends.

.task CHOOSE create=$8,$9,$10 targets=SECOND,FIRST
.task SECOND create=$11 targets=PRINT
.task FIRST create=$11 targets=PRINT
.task PRINT create=- targets=-

CHOOSE:
        addiu $8, $0, 7       !f
        addiu $9, $0, 3       !f
        slt   $10, $8, $9               # 1 if the second number is larger
        beq   $10, $0, FIRST  !s
SECOND:
        move  $11, $9         !f
        j     PRINT           !s
FIRST:
        move  $11, $8         !f !s
PRINT:
        out   $11
        halt
