# The sieve of Eratosthenes over the 65,536 bytes of data memory.
# A byte is 1 where its number is composite. The output is how many numbers
# from 2 on are prime, and the sum of the addresses of their bytes.

.task MAIN  create=- targets=PRIME
.task PRIME create=- targets=PRIME,TALLY
.task TALLY create=- targets=COUNT
.task COUNT create=- targets=COUNT,DONE
.task DONE  create=- targets=-

.data
FLAGS:  .space 65536

.text
MAIN:
        la    $16, FLAGS
        li    $17, 65536
        addu  $18, $16, $17     # behind the last flag
        li    $19, 1
        li    $8, 2         !s
PRIME:
        addu  $9, $16, $8
        lbu   $10, 0($9)
        bne   $10, $0, SKIP
        multu $8, $8
        mflo  $11
        addu  $11, $16, $11     # the flag of the square
CROSS:
        sb    $19, 0($11)
        addu  $11, $11, $8
        sltu  $10, $11, $18
        bne   $10, $0, CROSS
SKIP:
        addiu $8, $8, 1
        slti  $10, $8, 256
        bne   $10, $0, PRIME !s
TALLY:
        addiu $9, $16, 2
        li    $20, 0
        li    $21, 0        !s
COUNT:
        lbu   $10, 0($9)
        addiu $10, $10, -1      # all ones at a prime, else 0
        subu  $20, $20, $10
        and   $11, $10, $9
        addu  $21, $21, $11
        addiu $9, $9, 1
        bne   $9, $18, COUNT !s
DONE:
        out   $20
        out   $21
        halt
