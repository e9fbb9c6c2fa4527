# The run ends as unlisted: in the third round the jump goes to a task that ROUND does not list as a target.

.start START
.task START create=$16 targets=ROUND
.task ROUND create=$8,$16 targets=ROUND,LAST
.task LAST  create=- targets=-
.task OTHER create=- targets=-

.rodata
WAYS:   .word 0x00400008, 0x00400008, 0x00400018

.text
START:
        la    $16, WAYS         !f !s
ROUND:                                  # at 0x00400008
        lw    $8, 0($16)        !f
        addiu $16, $16, 4       !f
        jr    $8                !s
LAST:
        halt
OTHER:                                  # at 0x00400018
        out   $8
        halt
