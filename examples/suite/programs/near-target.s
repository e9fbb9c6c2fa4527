# The run ends as unlisted: the jump goes two bytes beyond a target, and there is no instruction.

.task START create=$8 targets=JUMP
.task JUMP  create=$9 targets=LAST
.task LAST  create=- targets=-

START:
        la    $8, LAST          !f !s
JUMP:
        addiu $9, $8, 2         !f
        jr    $9                !s
LAST:
        out   $9
        halt
