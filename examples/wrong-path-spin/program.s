# A loop without end on a path that is never taken.
#
# The branch of A is always taken, to C. A unit that was given B goes round
# until it is squashed.

.task A create=- targets=B,C
.task B create=- targets=-
.task C create=- targets=-

A:
        beq   $0, $0, C   !s
B:
        j     B
C:
        halt
