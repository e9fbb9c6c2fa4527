# How registers travel: $8 is written twice in FIRST, and the second write sends it; $9 has no forward bit in FIRST and is
# drained; $10 is written on one path and released on the other; $11 passes FIRST and THIRD, which do not produce it;
# THIRD writes $9 before it arrives.

.task FIRST  create=$8,$9,$10,$12 targets=SECOND
.task SECOND create=$11 targets=THIRD
.task THIRD  create=$9,$13,$14 targets=FIRST,LAST
.task LAST   create=- targets=-

FIRST:
        addiu $8, $8, 1                 # not the last write of $8
        sll   $9, $8, 2
        andi  $12, $8, 2        !f
        bne   $12, $0, KEEP
        addu  $10, $10, $8      !f
        j     SEND
KEEP:   release $10
SEND:   addiu $8, $8, 2         !f !s
SECOND:
        addu  $11, $11, $9      !f !s
THIRD:
        addiu $9, $0, 5                 # from here on the unit reads its own $9
        addu  $13, $9, $8       !f
        addu  $9, $9, $10       !f
        slti  $14, $8, 18
        bne   $14, $0, FIRST    !s
LAST:
        out   $8
        out   $9
        out   $10
        out   $11
        out   $12
        out   $13
        halt
