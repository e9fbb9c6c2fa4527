# Counts to four in a loop, one task for each iteration.
#
# Task A is one iteration: it adds 1 to $8, adds $8 to a running sum in $9, and
# repeats while $8 is below 4. Task B prints the sum, which is 10.

.start A
.task A create=$8,$9,$10 targets=A,B
.task B create=- targets=-

A:
        addiu $8, $8, 1   !f    # the iteration's only write of $8: send it on
        addu  $9, $9, $8  !f    # so it is with the sum
        slti  $10, $8, 4        # $10 is 1 while iterations are left
        bne   $10, $0, A  !s    # the task ends here, on both ways
B:
        out   $9
        halt
