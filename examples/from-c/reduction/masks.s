# Made by c2ms.py from program.c, mipsel-linux-gnu-gcc 12.2.0 -O1.
# Tasks: outer, release none. This translation is not proved; `multiscalar check` judges its marks.

.start _start
.task _start create=$29,$31 targets=main
.task _start_after_main create=- targets=-
.task main create=$4,$5,$6,$7 targets=L3
.task L3 create=$2,$3,$4,$5,$6 targets=L3,_start_after_main

.text
_start:
        lui   $29,4097                  # la $sp, top_of_the_stack
        ori   $29,$29,65520          # la $sp, top_of_the_stack
        jal   main  !s
_start_after_main:
        halt
# program.c:15:     for (unsigned n = 0; n < 100; n++) {
main:
        move  $4,$0
# program.c:14:     unsigned sum = 0, largest = 0;
        move  $6,$0
        move  $5,$0
# program.c:15:     for (unsigned n = 0; n < 100; n++) {
        li    $7,100
        j     L3  !s
L2:
        addiu $4,$4,1
        beq   $4,$7,L5  !sn
# program.c:6:     value ^= value << 13;
L3:
        sll   $3,$4,13
        xor   $3,$3,$4
# program.c:7:     value ^= value >> 17;
        srl   $2,$3,17
        xor   $3,$3,$2
# program.c:8:     value ^= value << 5;
        sll   $2,$3,5
        xor   $3,$3,$2
# program.c:6:     value ^= value << 13;
        sll   $2,$3,13
        xor   $2,$2,$3
# program.c:7:     value ^= value >> 17;
        srl   $3,$2,17
        xor   $2,$2,$3
# program.c:8:     value ^= value << 5;
        sll   $3,$2,5
        xor   $2,$2,$3
# program.c:16:         unsigned value = mixed(mixed(n)) >> 4;
        srl   $2,$2,4
# program.c:17:         sum += value;
        addu  $5,$5,$2
        sltu  $3,$6,$2
        beq   $3,$0,L2
        move  $6,$2
        j     L2
L5:
        out   $5
        out   $6
# program.c:24: }
        move  $2,$0
        jr    $31  !s

# The stack: 65536 bytes up to 0x10020000; data lie above it.
