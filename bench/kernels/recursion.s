# Fibonacci numbers by double recursion, with a stack in data memory.
# Each call is a task, and so is what comes after each return. The output is
# the 23rd number and how many leaves the calls have.

.task MAIN   create=- targets=FIB
.task FIB    create=- targets=FIB,FIRST,SECOND,DONE
.task FIRST  create=- targets=FIB
.task SECOND create=- targets=FIRST,SECOND,DONE
.task DONE   create=- targets=-

.data
STACK:  .space 1024
TOP:

.text
MAIN:
        la    $29, TOP
        li    $17, 0            # leaves so far
        li    $4, 23
        jal   FIB           !s
DONE:
        out   $2
        out   $17
        halt
FIB:
        sltiu $8, $4, 2
        bne   $8, $0, LEAF
        addiu $29, $29, -12
        sw    $31, 0($29)
        sw    $4, 4($29)
        addiu $4, $4, -1
        jal   FIB           !s
FIRST:
        sw    $2, 8($29)
        lw    $4, 4($29)
        addiu $4, $4, -2
        jal   FIB           !s
SECOND:
        lw    $8, 8($29)
        lw    $31, 0($29)
        addiu $29, $29, 12
        addu  $2, $2, $8
        jr    $31           !s
LEAF:
        move  $2, $4
        addiu $17, $17, 1
        jr    $31           !s
