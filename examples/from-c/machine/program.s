# Made by c2ms.py from program.c, mipsel-linux-gnu-gcc 12.2.0 -O1.
# Tasks: outer, release none. This translation is not proved; `multiscalar check` judges its marks.

.start _start
.task _start create=$29,$31 targets=main
.task _start_after_main create=- targets=-
.task main create=$3,$5,$6,$7,$8,$9,$10,$11 targets=L4
.task L4 create=$2,$3,$4,$5,$8,$9,$10 targets=L4,_start_after_main

.text
_start:
        lui   $29,4097                  # la $sp, top_of_the_stack
        ori   $29,$29,65520 !f          # la $sp, top_of_the_stack
        jal   main !f  !s
_start_after_main:
        halt
# program.c:18:     for (const char *at = text; at < text + sizeof text;) {
main:
        lui   $5,4096                   # lui $5,%hi(text)
        addiu $5,$5,12 !f               # addiu $5,$5,%lo(text)
# program.c:17:     unsigned state = BETWEEN, words = 0, numbers = 0, names = 0;
        move  $8,$0 !f
        move  $9,$0 !f
        move  $10,$0 !f
        move  $3,$0 !f
# program.c:24:         unsigned kind = letter - '0' < 10 ? DIGIT : (letter | 32) - 'a' < 26 ? LETTER : SPACE;
        li    $11,2 !f
# program.c:26:         state = next[before][kind];
        lui   $7,4096                   # lui $7,%hi(next)
        addiu $7,$7,0 !f                # addiu $7,$7,%lo(next)
# program.c:18:     for (const char *at = text; at < text + sizeof text;) {
        lui   $6,4096                   # lui $6,%hi(text+88)
        addiu $6,$6,100 !f              # addiu $6,$6,%lo(text+88)
        j     L4  !s
# program.c:24:         unsigned kind = letter - '0' < 10 ? DIGIT : (letter | 32) - 'a' < 26 ? LETTER : SPACE;
L5:
        move  $4,$11
# program.c:26:         state = next[before][kind];
L2:
        sll   $2,$3,1
        addu  $2,$2,$3
        addu  $2,$2,$7
        addu  $2,$2,$4
        lbu   $2,0($2)
# program.c:28:         if (state == BETWEEN) {
        bne   $2,$0,L3
# program.c:29:             words += before == WORD;
        xori  $4,$3,1
        sltiu $4,$4,1
        addu  $10,$10,$4 !f
# program.c:30:             numbers += before == NUMBER;
        xori  $4,$3,2
        sltiu $4,$4,1 !f
        addu  $9,$9,$4 !f
# program.c:31:             names += before == NAME;
        xori  $3,$3,3
        sltiu $3,$3,1
        addu  $8,$8,$3 !f
# program.c:18:     for (const char *at = text; at < text + sizeof text;) {
L3:
        sltu  $3,$5,$6
        beq   $3,$0,L7
        move  $3,$2 !f  !s
# program.c:20:         SETTLE(here);
L4:
        move  $2,$5
# program.c:21:         at++;
        addiu $5,$5,1 !f
# program.c:23:         unsigned letter = *here;
        lb    $2,0($2)
# program.c:24:         unsigned kind = letter - '0' < 10 ? DIGIT : (letter | 32) - 'a' < 26 ? LETTER : SPACE;
        addiu $4,$2,-48
        sltiu $4,$4,10
        bne   $4,$0,L5
        ori   $4,$2,32
        addiu $4,$4,-97
        sltiu $4,$4,26
        j     L2
L7:
        out   $10
        out   $9
        out   $8
# program.c:38: }
        move  $2,$0 !f
        jr    $31  !s

# The stack: 65536 bytes up to 0x10020000; data lie above it.

# 0x10000000 next
# 0x1000000c text
.rodata
.word 0x20100,0x3000301,0x3030002,0x31206e69,0x20353939,0x6e752061,0x20347469,0x3120666f
.word 0x6e752036,0x20737469,0x206e6172,0x6b736174,0x6e612037,0x61742064,0x32316b73,0x65686120
.word 0x6f206461,0x20332066,0x6568746f,0x202c7372,0x20646e61,0x74203939,0x736b7361,0x69617720
.byte 116,101,100
