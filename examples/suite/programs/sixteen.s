# Rounds that need little of each other: the number of the round travels first, then each unit loops inside its task. So
# sixteen units are busy at once, and the registers go round the whole ring. At the end all later units are squashed.

.task ROUND create=$8,$9,$10,$11,$12 targets=ROUND,LAST
.task LAST  create=- targets=-

ROUND:
        addiu $8, $8, 1         !f
        move  $9, $8
        addiu $10, $0, 0
LOOP:
        addu  $10, $10, $9
        addiu $9, $9, -5
        bgtz  $9, LOOP
        release $9, $10
        addu  $11, $11, $10     !f
        slti  $12, $8, 20
        bne   $12, $0, ROUND    !s
LAST:
        out   $11
        out   $9
        halt
