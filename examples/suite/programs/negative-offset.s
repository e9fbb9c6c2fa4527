# Stores with negative offsets, of each width: the tasks go up through memory and write below their address.

.task START create=$16,$17 targets=STEP
.task STEP  create=$8,$16 targets=STEP,DONE
.task DONE  create=$8 targets=-

.data
FIRST:  .space 32
END:    .word 0

.text
START:
        la    $16, FIRST        !f
        la    $17, END          !f !s
STEP:
        addiu $16, $16, 8       !f
        lw    $8, -8($16)
        addu  $8, $8, $16       !f
        sw    $8, -4($16)
        sh    $8, -6($16)
        sb    $8, -7($16)
        bne   $16, $17, STEP    !s
DONE:
        lw    $8, -8($17)
        out   $8
        lw    $8, -4($17)
        out   $8
        halt
