# What waits for the head: loads that are not of read-only data or would trap, stores, `out` and `halt`. All are on a wrong
# path, and only units ahead of the head come to them.

.start START
.task START  create=$8,$9,$10,$11 targets=CHOOSE
.task CHOOSE create=$11 targets=WORD,LAST
.task WORD   create=$4 targets=HALF
.task HALF   create=$4 targets=BELOW
.task BELOW  create=$4 targets=ABOVE
.task ABOVE  create=$4 targets=LW
.task LW     create=$4 targets=LH
.task LH     create=$4 targets=LHU
.task LHU    create=$4 targets=LB
.task LB     create=$4 targets=LBU
.task LBU    create=$4 targets=SW
.task SW     create=- targets=SH
.task SH     create=- targets=SB
.task SB     create=- targets=OUT
.task OUT    create=- targets=HALT
.task HALT   create=- targets=-
.task LAST   create=- targets=-

.rodata
TABLE:  .word 1, 2

.data
CELL:   .word 11

.text
START:
        la    $8, TABLE         !f
        la    $9, CELL          !f
        lui   $10, 0x2000       !f
        addiu $11, $0, 12       !f !s
CHOOSE:
        addiu $11, $11, -1
        bgtz  $11, CHOOSE               # until each of the others has come to its turn
        bltz  $11, WORD         !st     # never
        release $11             !s
LAST:
        out   $11
        halt
WORD:   lw    $4, 2($8)         !f !s   # not aligned
HALF:   lhu   $4, 5($8)         !f !s   # not aligned
BELOW:  lb    $4, -1($8)        !f !s   # before all data
ABOVE:  lw    $4, 0($10)        !f !s   # after all data
LW:     lw    $4, 0($9)         !f !s
LH:     lh    $4, 2($9)         !f !s
LHU:    lhu   $4, 0($9)         !f !s
LB:     lb    $4, 3($9)         !f !s
LBU:    lbu   $4, 0($9)         !f !s
SW:     sw    $8, 0($9)         !s
SH:     sh    $8, 2($9)         !s
SB:     sb    $8, 1($9)         !s
OUT:    out   $8                !s
HALT:   halt
