# A program whose marks are wrong in five places.
#
# A writes and forwards $8, which its create mask lacks. B ends at C, which it
# does not list; it lists D, where no task begins. C runs on into D, for which
# its certificate has no mask.

.task A create=- targets=B
.task B create=$9 targets=D
.task C create=- targets=-

A:
        addiu $8, $0, 1   !f !s
B:
        addiu $9, $0, 2   !s
C:
        out   $9
D:
        halt
