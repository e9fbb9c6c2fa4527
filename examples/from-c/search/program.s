# Made by c2ms.py from program.c, mipsel-linux-gnu-gcc 12.2.0 -O1.
# Tasks: outer, release late. This translation is not proved; `multiscalar check` judges its marks.

.start _start
.task _start create=$29,$31 targets=main
.task _start_after_main create=- targets=-
.task main create=$3,$5,$6,$7,$8,$9,$10,$11 targets=L4
.task L4 create=$2,$3,$4,$10 targets=L4,_start_after_main

.text
_start:
        lui   $29,4097                  # la $sp, top_of_the_stack
        ori   $29,$29,65520 !f          # la $sp, top_of_the_stack
        jal   main !f  !s
_start_after_main:
        halt
# program.c:10:     for (const char *at = text; at < text + sizeof text - sizeof word;) {
main:
        lui   $3,4096                   # lui $3,%hi(text)
        addiu $3,$3,0 !f                # addiu $3,$3,%lo(text)
# program.c:9:     unsigned count = 0;
        move  $10,$0 !f
# program.c:16:         while (n < sizeof word - 1 && here[n] == word[n])
        li    $6,116 !f
        li    $7,97 !f
        li    $8,115 !f
        li    $9,107 !f
# program.c:20:             out(here - text);
        move  $11,$3 !f
# program.c:10:     for (const char *at = text; at < text + sizeof text - sizeof word;) {
        lui   $5,4096                   # lui $5,%hi(text+112)
        addiu $5,$5,112 !f              # addiu $5,$5,%lo(text+112)
        j     L4  !s
L2:
        sltu  $2,$3,$5
        release $4,$10
        beq   $2,$0,L8  !sn
# program.c:12:         SETTLE(here);
L4:
        move  $2,$3
# program.c:13:         at++;
        addiu $3,$3,1 !f
# program.c:16:         while (n < sizeof word - 1 && here[n] == word[n])
        lb    $4,0($2)
        bne   $4,$6,L2
        lb    $4,1($2)
        bne   $4,$7,L2
        lb    $4,2($2)
        bne   $4,$8,L2
        lb    $4,3($2) !f
        bne   $4,$9,L2
# program.c:19:             count++;
        addiu $10,$10,1 !f
# program.c:20:             out(here - text);
        subu  $2,$2,$11
        out   $2
        j     L2
L8:
        out   $10
# program.c:25: }
        move  $2,$0 !f
        jr    $31  !s

# The stack: 65536 bytes up to 0x10020000; data lie above it.

# 0x10000000 text
.rodata
.word 0x61742061,0x68206b73,0x6f207361,0x6520656e,0x7972746e,0x2061203b,0x6b736174,0x79616d20
.word 0x76616820,0x616d2065,0x6520796e,0x73746978,0x6877203b,0x20657265,0x61742061,0x65206b73
.word 0x2c73646e,0x65687420,0x78656e20,0x61742074,0x62206b73,0x6e696765,0x61202c73,0x7320646e
.word 0x6174206f,0x20736b73,0x6c6c6f66,0x7420776f,0x736b7361
