# The 32-bit xorshift generator of Marsaglia (13, 17, 5), in tasks of 40 rounds.
# The output is the last state and the sum of all states modulo 2^32.

.task MAIN  create=- targets=BLOCK
.task BLOCK create=- targets=BLOCK,DONE
.task DONE  create=- targets=-

MAIN:
        li    $8, 2463534242    # the state
        li    $9, 0             # the sum
        li    $10, 2750     !s  # how many blocks
BLOCK:
        li    $11, 40
ROUND:
        sll   $12, $8, 13
        xor   $8, $8, $12
        srl   $12, $8, 17
        xor   $8, $8, $12
        sll   $12, $8, 5
        xor   $8, $8, $12
        addu  $9, $9, $8
        addiu $11, $11, -1
        bne   $11, $0, ROUND
        addiu $10, $10, -1
        bne   $10, $0, BLOCK !s
DONE:
        out   $8
        out   $9
        halt
