/* What people write for the GNU assembler: macros, numbers, sections, delay slots, local labels. */
#define FACTOR (3 * 5 - 2)
        .text
        .globl arithmetic
arithmetic:
        addu    $2, $4, $5
        addu    $2, 0x12345
        subu    $2, $2, 40000
        and     $3, $4, 0xF0F0
        or      $3, $3, 0x10001
        xor     $2, $2, $3
        andi    $3, $5, 0x7FFF
        nor     $3, $3, $4
        addu    $2, $2, $3
        negu    $3, $5
        xor     $2, $2, $3
        not     $3, $4
        subu    $2, $3
        abs     $3, $5
        addu    $2, $2, $3
        sll     $3, $4, 5
        srl     $8, $4, $5
        sra     $9, $5, 3
        addu    $2, $2, $3
        xor     $2, $2, $8
        addu    $2, $2, $9
        rol     $3, $2, 7
        ror     $8, $4, 9
        xor     $2, $3, $8
        rol     $3, $2, $5
        addu    $2, $2, $3
        mul     $3, $2, $5
        xor     $2, $2, $3
        mul     $3, $4, FACTOR
        addu    $2, $2, $3
        li      $3, 0xFFFF8000
        xor     $2, $2, $3
        li      $3, 0x8000
        addu    $2, $2, $3
        li      $3, 'A'
        addu    $2, $2, $3
        j       $31

        .globl compared
compared:
        li      $2, 0
        blt     $4, $5, 1f
        addiu   $2, $2, 1
1:      sll     $2, $2, 1
        bge     $4, $5, 1f
        addiu   $2, $2, 1
1:      sll     $2, $2, 1
        bgtu    $4, $5, 1f
        addiu   $2, $2, 1
1:      sll     $2, $2, 1
        bleu    $4, $5, 1f
        addiu   $2, $2, 1
1:      sll     $2, $2, 1
        bgt     $4, 10, 1f
        addiu   $2, $2, 1
1:      sll     $2, $2, 1
        ble     $4, -5, 1f
        addiu   $2, $2, 1
1:      sll     $2, $2, 1
        beq     $4, 7, 1f
        addiu   $2, $2, 1
1:      sll     $2, $2, 1
        bnez    $5, 1f
        addiu   $2, $2, 1
1:      sll     $2, $2, 1
        seq     $3, $4, $5
        or      $2, $2, $3
        sll     $2, $2, 1
        sne     $3, $4, 100000
        or      $2, $2, $3
        sll     $2, $2, 1
        sgt     $3, $4, $5
        or      $2, $2, $3
        sll     $2, $2, 1
        sleu    $3, $4, $5
        or      $2, $2, $3
        sll     $2, $2, 1
        sge     $3, $4, $5
        or      $2, $2, $3
        sll     $2, $2, 1
        slt     $3, $4, 40000
        or      $2, $2, $3
        sll     $2, $2, 1
        sltu    $3, $4, -3
        or      $2, $2, $3
        b       2f
        li      $2, -1
2:      jr      $31

        .globl divided
divided:
        div     $0, $4, $5
        mflo    $2
        mfhi    $3
        xor     $2, $2, $3
        divu    $0, $4, $5
        mflo    $3
        addu    $2, $2, $3
        mfhi    $3
        xor     $2, $2, $3
        rem     $3, $4, 7
        addu    $2, $2, $3
        divu    $3, $4, 10
        addu    $2, $2, $3
        jr      $31

        .set    noreorder
        .globl slots
slots:
        move    $8, $4
        beqz    $5, 3f
        move    $2, $0
1:      addiu   $5, $5, -1
        sw      $5, 0($8)
        bnez    $5, 1b
        addiu   $8, $8, 4
        li      $9, 3
2:      addu    $2, $2, $9
        bne     $9, $0, 2b
        addiu   $9, $9, -1
        bltz    $9, 4f
        move    $9, $5
        li      $2, 99
4:      addu    $2, $2, $9
        move    $10, $31
        jal     helper
        li      $4, 17
        addu    $2, $2, $3
        la      $25, helper
        jalr    $25
        li      $4, 30
        jr      $10
        addu    $2, $2, $3
3:      jr      $31
        nop
helper:
        jr      $31
        addiu   $3, $4, 1
        .set    reorder

        .globl unaligned
unaligned:
        ulw     $2, 2($4)
        lwl     $3, 8($4)
        lwr     $3, 5($4)
        addu    $2, $2, $3
        lwr     $3, 10($4)
        addiu   $2, $2, 1
        lwl     $3, 13($4)
        xor     $2, $2, $3
        lwl     $3, 14($4)
        addu    $2, $2, $3
        lwr     $3, 16($4)
        xor     $2, $2, $3
        swl     $2, 4($4)
        usw     $3, 7($4)
        swr     $2, 12($4)
        swl     $3, 18($4)
        swr     $3, 15($4)
        jr      $31

        .globl tables
tables:
        sltiu   $2, $4, 18
        beq     $2, $0, outside
        sll     $2, $4, 2
        la      $3, places
        addu    $3, $3, $2
        lw      $3, ($3)
        jr      $3
        .rdata
        .align  2
places: .word   $L0, $L1, $L2, $L3, $L4, $L5, $L6, $L7, $L8, $L9, $L10, $L11, $L12, $L13, $L14, $L15, $L16, $L0
        .text
$L0:    li      $2, 1000
        jr      $31
$L1:    li      $2, 1001
        jr      $31
$L2:    li      $2, 1002
        jr      $31
$L3:    li      $2, 1003
        jr      $31
$L4:    li      $2, 1004
$L5:    addiu   $2, $2, 5
$L6:    addiu   $2, $2, 6
        jr      $31
$L7:    li      $2, 1007
        jr      $31
$L8:    li      $2, 1008
        jr      $31
$L9:    li      $2, 1009
        jr      $31
$L10:   li      $2, 1010
        jr      $31
$L11:   li      $2, 1011
        jr      $31
$L12:   li      $2, 1012
        jr      $31
$L13:   li      $2, 1013
        jr      $31
$L14:   li      $2, 1014
        jr      $31
$L15:   li      $2, 1015
        jr      $31
$L16:   li      $2, 1016
        jr      $31
outside:
        li      $2, -1
        jr      $31

        .set    SIZE, 4 * 2
        LIMIT = (1 << 4) | 3
        .globl words
        .globl end_of_words
        .data
        .byte   1
words:  .word   5, -1, 0x80000000, SIZE, LIMIT, 'z'
        .half   -2, 0x1234
        .byte   1, 2
        .align  2
        .ascii  "text\n\"q\"\101\x42"
        .asciz  "end"
        .p2align 2
        .space  4
        .word   7 + 3 * 4 - 1, ~5 & 0xFF
end_of_words:

        .comm   reserved, 40, 8
        .lcomm  own, 12
        .globl  data_words
        .text
data_words:
        sll     $4, $4, 2
        la      $3, reserved
        addu    $3, $3, $4
        lw      $2, reserved($4)
        addu    $2, $2, $4
        sw      $2, 4($3)
        sw      $2, own
        lw      $5, own
        lw      $6, words + 8
        lui     $7, %hi(words + 7)
        lbu     $7, %lo(words + 7)($7)
        addu    $2, $2, $5
        addu    $2, $2, $6
        addu    $2, $2, $7
        jr      $31

        .globl  many
many:
        addiu   $sp, $sp, -8
        sw      $ra, 4($sp)
        move    $v0, $zero
        jal     helper
        addu    $v0, $v0, $v1
        jal     helper
        addu    $v0, $v0, $v1
        lw      $ra, 4($sp)
        addiu   $sp, $sp, 8
        jr      $ra
