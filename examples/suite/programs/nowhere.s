# The run ends as unlisted: the jump goes to an address that has no instruction.

.task START create=$8 targets=JUMP
.task JUMP  create=$9 targets=LAST,START
.task LAST  create=- targets=-

START:
        li    $8, 0x00400006    !f !s
JUMP:
        out   $8
        jalr  $9, $8            !f !s
LAST:
        out   $9
        halt
