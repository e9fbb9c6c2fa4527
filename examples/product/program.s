# HI and LO are registers like the others: A sends the product's two halves.
#
# -2 read as unsigned is 4294967294. Its square is 4294967292 times 2^32, plus 4.

.task A create=$8,$hi,$lo targets=B
.task B create=$9 targets=-

A:
        addiu $8, $0, -2  !f
        multu $8, $8      !f !s # writes HI and LO, and sends both
B:
        mfhi  $9
        out   $9
        mflo  $9          !f    # the last write of $9 in this task
        out   $9
        halt
