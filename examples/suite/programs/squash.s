# A walk whose turns look random, so that predictions are often wrong: LEFT or RIGHT, one of them with a further choice,
# and then again or the end. What a squashed unit has computed and received is lost, and computed again.

.start START
.task START  create=$8,$16 targets=TURN
.task TURN   create=$8,$9 targets=LEFT,RIGHT
.task LEFT   create=$10 targets=JOIN
.task RIGHT  create=$9,$11 targets=JOIN,NEAR
.task NEAR   create=$10,$11 targets=JOIN
.task JOIN   create=$9,$16 targets=TURN,LAST
.task LAST   create=- targets=-

START:
        addiu $8, $0, 0x55      !f
        addiu $16, $0, 9        !f !s
TURN:
        sll   $9, $8, 3
        xor   $8, $8, $9
        srl   $9, $8, 5
        xor   $8, $8, $9
        sll   $9, $8, 1
        xor   $8, $8, $9
        andi  $8, $8, 0x7fff    !f
        andi  $9, $8, 4         !f
        bne   $9, $0, RIGHT     !s
LEFT:
        addiu $10, $10, 1       !f
        j     JOIN              !s
RIGHT:
        addiu $11, $11, 1
        andi  $9, $8, 2         !f
        bne   $9, $0, CLOSE     !sn     # if it is not taken, JOIN does not follow, but NEAR
NEAR:
        addu  $10, $10, $9      !f
        addu  $11, $11, $11     !f
        j     JOIN              !s
CLOSE:                                  # of RIGHT
        release $11
        j     JOIN              !s
JOIN:
        addiu $16, $16, -1      !f
        sltu  $9, $0, $16       !f
        bne   $9, $0, TURN      !s
LAST:
        out   $8
        out   $10
        out   $11
        halt
