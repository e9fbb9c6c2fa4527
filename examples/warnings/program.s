# A program whose marks are right, and of which `explain` has five warnings.
#
# A never writes $11. It writes $8 for the last time without forwarding it, and
# releases $9, which it has forwarded before on both ways to the release. No
# task reaches the two instructions after A, nor the last one.

.task A create=$8,$9,$11 targets=B
.task B create=- targets=-

A:
        addiu $9, $0, 1   !f
        beq   $9, $0, skip
        addiu $8, $0, 2
skip:
        release $9
        j     B           !s
        nop
        nop
B:
        out   $8
        halt
        nop
