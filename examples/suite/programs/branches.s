# Each branch, taken and not, with each stop: plain in ROUND, and as the end of a task with !s, !st and !sn.

.start START
.task START    create=$16,$17 targets=ROUND
.task ROUND    create=$8,$9,$16 targets=NEGATIVE,ZERO,POSITIVE
.task NEGATIVE create=$10 targets=NEXT
.task ZERO     create=$10 targets=NEXT
.task POSITIVE create=$10 targets=NEXT
.task NEXT     create=$11 targets=ROUND,DONE
.task DONE     create=- targets=-

.rodata
VALUES: .word 5, -5, 0, 0x7fffffff, 0, 0x80000000, 1
END:

.text
START:
        la    $16, VALUES       !f
        la    $17, END          !f !s
ROUND:                                  # $9 gets a bit for each branch that is not taken
        lw    $8, 0($16)        !f
        addiu $16, $16, 4       !f
        addiu $9, $0, 0
        beq   $8, $0, AFTER1
        ori   $9, $9, 1
AFTER1: bne   $8, $0, AFTER2
        ori   $9, $9, 2
AFTER2: blez  $8, AFTER3
        ori   $9, $9, 4
AFTER3: bgtz  $8, AFTER4
        ori   $9, $9, 8
AFTER4: bltz  $8, AFTER5
        ori   $9, $9, 16
AFTER5: bgez  $8, AFTER6
        ori   $9, $9, 32
AFTER6: release $9                      # whichever write was the last
        bltz  $8, NEGATIVE      !st     # the task ends here if the branch is taken
        bgtz  $8, POSITIVE      !st
        nop                     !s      # and else here
ZERO:
        addiu $10, $0, 100      !f
        j     NEXT              !s
NEGATIVE:
        addiu $10, $0, -1       !f
        blez  $8, NEXT          !st
        j     NEXT              !s
POSITIVE:
        addiu $10, $0, 1        !f
        blez  $8, FURTHER       !sn     # the task ends here if the branch is not taken
NEXT:
        addu  $11, $9, $10      !f
        out   $11
        bne   $16, $17, ROUND   !s      # the task ends here in both cases
DONE:
        halt
FURTHER:                                # of POSITIVE
        j     NEXT              !s
