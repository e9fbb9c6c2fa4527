# Stores and loads of each width. Only the head touches data memory, so the tasks wait for their turn: each loads the word
# that the task before it stored.

.task START create=$8,$16,$17 targets=STEP
.task STEP  create=$8,$9,$16 targets=STEP,DONE
.task DONE  create=$8 targets=-

.data
WORDS:  .word 0x80c1f203
        .space 12
END:    .byte 0xfe, 1, 2, 3

.text
START:
        la    $16, WORDS        !f
        la    $17, END          !f
        addiu $8, $0, 0         !f !s
STEP:
        addiu $16, $16, 4       !f
        lw    $9, -4($16)
        addu  $8, $8, $9
        lh    $9, -4($16)
        addu  $8, $8, $9
        lhu   $9, -2($16)
        addu  $8, $8, $9
        lb    $9, -1($16)
        addu  $8, $8, $9
        lbu   $9, -1($16)
        addu  $8, $8, $9        !f
        sw    $8, 0($16)
        sh    $9, 2($16)                # into the upper half
        sb    $8, 1($16)
        lw    $9, 0($16)        !f
        bne   $16, $17, STEP    !s
DONE:
        out   $8
        lw    $8, 0($17)
        out   $8
        halt
