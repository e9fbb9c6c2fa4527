# Loads of read-only data run ahead of the head, in each width. A load that is not aligned, or of data memory, waits.

.start START
.task START create=$16,$17 targets=SUM
.task SUM   create=$8,$9,$16 targets=SUM,AGAIN
.task AGAIN create=$10 targets=LAST
.task LAST  create=$11,$12 targets=-

.rodata
TABLE:  .word 0x80000001, 0x00ff7f80, 0xffffffff, 0x0180fe02
END:    .byte 0x81

.data
CELL:   .word 0x10000000

.text
START:
        la    $16, TABLE        !f
        la    $17, END          !f !s
SUM:
        addiu $16, $16, 4       !f
        lw    $9, -4($16)
        lh    $9, -4($16)
        lhu   $9, -4($16)
        lb    $9, -3($16)
        lbu   $9, -3($16)
        lh    $9, -2($16)
        lb    $9, -1($16)       !f
        addu  $8, $8, $9        !f
        bne   $16, $17, SUM     !s
AGAIN:
        lbu   $10, 0($17)
        lw    $10, 4($17)               # zero, after the bytes of the text
        lui   $10, 0x1001
        lw    $10, 0($10)               # of data memory: waits for the head
        lw    $10, 0($10)       !f !s   # the table's first word
LAST:
        out   $8
        out   $10
        lui   $12, 0x1001
        sb    $8, 3($12)
        lw    $12, 0($12)
        srl   $11, $12, 24
        out   $11
        halt
