# Exits through a register, with several targets: by a table of addresses in read-only data, and by an address that is
# computed.

.start START
.task START  create=$16,$17 targets=ROUND
.task ROUND  create=$8,$16 targets=ADD,SHIFT,FLIP
.task ADD    create=$18 targets=NEXT
.task SHIFT  create=$18 targets=NEXT
.task FLIP   create=$18 targets=NEXT
.task NEXT   create=$8,$9 targets=ROUND,SMALL,LARGE
.task SMALL  create=$18 targets=DONE
.task LARGE  create=$18 targets=DONE
.task DONE   create=- targets=-

.rodata
STEPS:  .word 0x0040002c, 0x00400034, 0x0040002c, 0x0040003c, 0x00400034, 0x0040003c
END:

.text
START:
        la    $16, STEPS        !f
        la    $17, END          !f !s
ROUND:
        lw    $8, 0($16)        !f      # a load of read-only data runs ahead
        addiu $16, $16, 4       !f
        jr    $8                !s
SMALL:
        addiu $18, $18, 1       !f
        j     DONE              !s
LARGE:
        addiu $18, $18, 1000    !f
        j     DONE              !s
ADD:                                    # at 0x0040002c
        addiu $18, $18, 7       !f
        j     NEXT              !s
SHIFT:                                  # at 0x00400034
        sll   $18, $18, 2       !f
        j     NEXT              !s
FLIP:                                   # at 0x0040003c
        xori  $18, $18, 0xffff  !f
        j     NEXT              !s
NEXT:
        bne   $16, $17, ROUND   !st
        la    $8, SMALL
        sltiu $9, $18, 1000
        xori  $9, $9, 1
        sll   $9, $9, 3         !f
        addu  $8, $8, $9        !f      # SMALL, or LARGE 8 bytes after it
        jr    $8                !s
DONE:
        out   $18
        halt
