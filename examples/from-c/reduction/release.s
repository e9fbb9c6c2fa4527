# Made by c2ms.py from settled.c, mipsel-linux-gnu-gcc 12.2.0 -O1.
# Tasks: outer, release early. This translation is not proved; `multiscalar check` judges its marks.

.start _start
.task _start create=$29,$31 targets=main
.task _start_after_main create=- targets=-
.task main create=$4,$5,$6 targets=L3
.task L3 create=$2,$3,$4,$5,$6 targets=L3,_start_after_main

.text
_start:
        lui   $29,4097                  # la $sp, top_of_the_stack
        ori   $29,$29,65520 !f          # la $sp, top_of_the_stack
        jal   main !f  !s
_start_after_main:
        halt
# settled.c:15:     for (unsigned n = 0; n < 100;) {
main:
        move  $4,$0 !f
# settled.c:14:     unsigned sum = 0, largest = 0;
        move  $6,$0 !f
        move  $5,$0 !f
        j     L3  !s
# settled.c:15:     for (unsigned n = 0; n < 100;) {
L2:
        release $6
        sltiu $2,$4,100
        beq   $2,$0,L5  !sn
# settled.c:17:         SETTLE(now);
L3:
        move  $2,$4
# settled.c:18:         n++;
        addiu $4,$4,1 !f
# settled.c:6:     value ^= value << 13;
        sll   $3,$2,13
        xor   $3,$3,$2
# settled.c:7:     value ^= value >> 17;
        srl   $2,$3,17
        xor   $3,$3,$2
# settled.c:8:     value ^= value << 5;
        sll   $2,$3,5
        xor   $3,$3,$2
# settled.c:6:     value ^= value << 13;
        sll   $2,$3,13
        xor   $2,$2,$3
# settled.c:7:     value ^= value >> 17;
        srl   $3,$2,17
        xor   $2,$2,$3
# settled.c:8:     value ^= value << 5;
        sll   $3,$2,5
        xor   $2,$2,$3
# settled.c:20:         unsigned value = mixed(mixed(now)) >> 4;
        srl   $2,$2,4
# settled.c:21:         sum += value;
        addu  $5,$5,$2 !f
        sltu  $3,$6,$2 !f
        beq   $3,$0,L2
        move  $6,$2 !f
        j     L2
L5:
        out   $5
        out   $6
# settled.c:28: }
        move  $2,$0 !f
        jr    $31  !s

# The stack: 65536 bytes up to 0x10020000; data lie above it.
