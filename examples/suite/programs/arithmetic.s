# Each instruction that computes, on pairs of operands at the ends of their ranges. The pairs are read-only data, so each
# unit works on its own pair.

.start START
.task START create=$16,$17 targets=ROUND
.task ROUND create=$4,$5,$8,$16,$32,$33 targets=ROUND,DONE
.task DONE  create=- targets=-

.rodata
PAIRS:  .word 7, 3
        .word 0xfffffff8, 5             # -8
        .word 0x80000000, 0xffffffff
        .word 0x7fffffff, 1
        .word 0x12345678, 36            # shifts by 4
        .word 0x80000001, 0x7fffffff    # their difference and their product need more bits
END:

.text
START:
        la    $16, PAIRS        !f
        la    $17, END          !f !s
ROUND:
        lw    $4, 0($16)        !f
        lw    $5, 4($16)        !f
        addiu $16, $16, 8       !f
        addu  $8, $4, $5
        subu  $8, $4, $5
        and   $8, $4, $5
        or    $8, $4, $5
        xor   $8, $4, $5
        nor   $8, $4, $5
        slt   $8, $4, $5
        sltu  $8, $4, $5
        sllv  $8, $4, $5
        srlv  $8, $4, $5
        srav  $8, $4, $5
        sll   $8, $4, 5
        srl   $8, $4, 5
        sra   $8, $4, 5
        addiu $8, $4, -1
        slti  $8, $4, -3
        sltiu $8, $4, -3                # -3 counts as 0xfffffffd
        andi  $8, $4, 0xff0f            # zeros above
        ori   $8, $4, 0xff0f
        xori  $8, $4, 0xff0f
        lui   $8, 0x8001
        mult  $4, $5
        mfhi  $8
        mflo  $8
        multu $4, $5
        mfhi  $8
        mflo  $8
        mthi  $4
        mtlo  $5
        mfhi  $8
        move  $0, $4                    # register 0 stays 0
        addu  $8, $0, $5
        nop
        li    $8, -32768
        li    $8, 65535
        li    $8, 0x12340000            # lui and ori
        bne   $16, $17, ROUND   !s
DONE:
        out   $8
        halt
