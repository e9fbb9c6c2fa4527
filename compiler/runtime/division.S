# Division, which the machine lacks. It uses $1, $26, $27, $28, HI and LO alone, so it fits where a compiler has put
# div or divu. The operands come in $26 and $27, the place to return to in $1; the quotient goes to LO, the remainder
# to HI, as div and divu leave them. A division by zero traps.
#
# The divisor is moved up below the dividend. In $28 a one moves down with each step up, so that the quotient's bits,
# which come in from the right, have pushed it out when the last of them is there.

        .globl  __multiscalar_div
__multiscalar_div:
        mthi    $1                      # HI keeps the place to return to
        srl     $28,$26,31
        sll     $28,$28,1               # 2 if the remainder is to be negative
        xor     $1,$26,$27
        srl     $1,$1,31                # 1 if the quotient is
        or      $1,$1,$28
        mtlo    $1                      # LO keeps both signs
        bgez    $26,dividend_is_positive
        subu    $26,$0,$26
dividend_is_positive:
        bgez    $27,both_are_positive
        subu    $27,$0,$27
        j       both_are_positive

        .globl  __multiscalar_divu
__multiscalar_divu:
        mthi    $1
        mtlo    $0
both_are_positive:
        beq     $27,$0,division_by_zero
        lui     $28,0x8000
move_up:
        srl     $1,$26,1
        sltu    $1,$1,$27               # 1 if twice the divisor would exceed the dividend
        bne     $1,$0,next_bit
        sll     $27,$27,1
        srl     $28,$28,1
        j       move_up
next_bit:
        sltu    $1,$26,$27
        bne     $1,$0,bit_is_zero
        subu    $26,$26,$27
        srl     $27,$27,1
        bltz    $28,last_bit_is_one
        sll     $28,$28,1
        ori     $28,$28,1
        j       next_bit
bit_is_zero:
        srl     $27,$27,1
        bltz    $28,last_bit_is_zero
        sll     $28,$28,1
        j       next_bit
last_bit_is_one:
        sll     $28,$28,1
        ori     $28,$28,1
        j       signs
last_bit_is_zero:
        sll     $28,$28,1
signs:
        mflo    $1
        beq     $1,$0,done
        andi    $27,$1,2
        beq     $27,$0,remainder_is_right
        subu    $26,$0,$26
remainder_is_right:
        andi    $1,$1,1
        beq     $1,$0,done
        subu    $28,$0,$28
done:
        mfhi    $1
        mthi    $26
        mtlo    $28
        jr      $1
division_by_zero:
        break
