# Made by c2ms.py from program.c, mipsel-linux-gnu-gcc 12.2.0 -O1.
# Tasks: outer, release early. This translation is not proved; `multiscalar check` judges its marks.

.start _start
.task _start create=$29,$31 targets=main
.task _start_after_main create=- targets=-
.task main create=$6,$7,$8,$9 targets=L3
.task L3 create=$2,$3,$4,$5,$7 targets=L3,L4
.task L4 create=$2,$3 targets=L4,_start_after_main

.text
_start:
        lui   $29,4097                  # la $sp, top_of_the_stack
        ori   $29,$29,65440 !f          # la $sp, top_of_the_stack
        jal   main !f  !s
_start_after_main:
        halt
# program.c:14:     for (unsigned n = 0; n < COUNT;) {
main:
        move  $7,$0 !f
# program.c:19:         unsigned number = numbers[now], rank = 0;
        lui   $8,4096                   # lui $8,%hi(numbers)
        addiu $8,$8,0 !f                # addiu $8,$8,%lo(numbers)
        addiu $6,$8,80 !f
# program.c:22:         sorted[rank] = number;
        lui   $9,4098                   # lui $9,%hi(sorted)
        addiu $9,$9,-80 !f  !s          # addiu $9,$9,%lo(sorted)
# program.c:16:         SETTLE(now);
L3:
        move  $2,$7
# program.c:17:         n++;
        addiu $7,$7,1 !f
# program.c:19:         unsigned number = numbers[now], rank = 0;
        sll   $2,$2,1
        addu  $2,$2,$8
        lhu   $5,0($2) !f
        move  $2,$8
        move  $4,$0
# program.c:21:             rank += numbers[k] < number;
L2:
        lhu   $3,0($2)
        sltu  $3,$3,$5
        addu  $4,$4,$3
# program.c:20:         for (unsigned k = 0; k < COUNT; k++)
        addiu $2,$2,2
        bne   $2,$6,L2
# program.c:22:         sorted[rank] = number;
        release $3
        sll   $4,$4,1
        addu  $4,$4,$9
        sh    $5,0($4)
# program.c:14:     for (unsigned n = 0; n < COUNT;) {
        sltiu $2,$7,40
        bne   $2,$0,L3  !st
        lui   $2,4098                   # lui $2,%hi(sorted)
        addiu $2,$2,-80 !f              # addiu $2,$2,%lo(sorted)
        addiu $4,$2,80 !f  !s
# program.c:25:         out(sorted[n]);
L4:
        lhu   $3,0($2) !f
        out   $3
# program.c:24:     for (unsigned n = 0; n < COUNT; n += 4)
        addiu $2,$2,8
        bne   $4,$2,L4  !st
# program.c:27: }
        move  $2,$0 !f
        jr    $31  !s

# The stack: 65456 bytes up to 0x1001ffb0; data lie above it.
# 0x1001ffb0 sorted

# 0x10000000 numbers
.rodata
.word 0x5701f7,0x3d0200,0xaa038c,0x1130381,0x1aa028d,0x1fd009a,0x2a50264,0x2bf02fd
.word 0x1d0137,0x33201bc,0x1040061,0x502db,0x280018e,0x241007a,0x14d03dd,0x35800c9
.word 0x1201d8,0x22502b2,0x3a6016e,0x30d00f7
