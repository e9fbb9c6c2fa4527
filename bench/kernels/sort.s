# Insertion sort of words in data memory that a linear congruential generator
# wrote there. The output is the least, the greatest, and the sum of each word
# times its place, modulo 2^32.

.task MAIN   create=- targets=FILL
.task FILL   create=- targets=FILL,SORT
.task SORT   create=- targets=INSERT
.task INSERT create=- targets=INSERT,SUM
.task SUM    create=- targets=ADD
.task ADD    create=- targets=ADD,DONE
.task DONE   create=- targets=-

.data
WORDS:  .space 3000

.text
MAIN:
        la    $16, WORDS
        li    $4, 740           # how many
        sll   $4, $4, 2
        addu  $17, $16, $4      # behind the last
        li    $18, 1664525
        li    $19, 1013904223
        li    $8, 1
        move  $9, $16       !s
FILL:
        multu $8, $18
        mflo  $8
        addu  $8, $8, $19
        sw    $8, 0($9)
        addiu $9, $9, 4
        bne   $9, $17, FILL !s
SORT:
        addiu $9, $16, 4    !s
INSERT:                         # all words before $9 are in order
        lw    $10, 0($9)
        move  $11, $9
LOWER:
        beq   $11, $16, STORE
        lw    $12, -4($11)
        sltu  $13, $10, $12
        beq   $13, $0, STORE
        sw    $12, 0($11)
        addiu $11, $11, -4
        j     LOWER
STORE:
        sw    $10, 0($11)
        addiu $9, $9, 4
        bne   $9, $17, INSERT !s
SUM:
        li    $20, 0
        li    $21, 0
        move  $9, $16       !s
ADD:
        lw    $10, 0($9)
        addiu $21, $21, 1
        multu $10, $21
        mflo  $10
        addu  $20, $20, $10
        addiu $9, $9, 4
        bne   $9, $17, ADD  !s
DONE:
        lw    $10, 0($16)
        out   $10
        lw    $10, -4($17)
        out   $10
        out   $20
        halt
