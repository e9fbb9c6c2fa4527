# Ackermann and the towers of Hanoi, as a compiler wrote them.
.start _start
.task _start create=$29,$31 targets=main
.task _start_after_main create=- targets=-
.task ack create=- targets=L2,ack_part
.task ack_part create=$2 targets=ack_after_ack_2,L1,ack_after_ack,main_after_ack
.task L2 create=$16,$29 targets=L4,ack_part_2
.task ack_part_2 create=$4,$5,$31 targets=ack
.task L1 create=$16,$29,$31 targets=ack_after_ack,ack_after_ack_2,L1,main_after_ack
.task L4 create=$5,$31 targets=ack
.task ack_after_ack create=$4,$5,$31 targets=ack
.task ack_after_ack_2 create=- targets=L1
.task hanoi create=$20,$29 targets=L8,L11
.task L8 create=$16,$17,$18,$19,$20,$29,$31 targets=hanoi_after_hanoi,hanoi_after_hanoi_2,main_after_hanoi
.task L11 create=$4,$6,$7,$16,$17,$18,$19,$31 targets=hanoi
.task hanoi_after_hanoi create=$2,$3,$4,$5,$6,$7,$31 targets=hanoi
.task hanoi_after_hanoi_2 create=- targets=L8
.task main create=$4,$5,$29,$31 targets=ack
.task main_after_ack create=$2,$4,$5,$6,$7,$31 targets=hanoi
.task main_after_hanoi create=$2,$29,$31 targets=_start_after_main

.text
_start:
        lui   $29,4097                  # la $sp, top_of_the_stack
        ori   $29,$29,65520 !f          # la $sp, top_of_the_stack
        jal   main !f  !s
_start_after_main:
        halt
# recur.c:2: static int ack(int m,int n){return m==0?n+1:n==0?ack(m-1,1):ack(m-1,ack(m,n-1));}
ack:
        bne   $4,$0,L2  !s
ack_part:
        addiu $2,$5,1 !f
        jr    $31  !s
L2:
        addiu $29,$29,-24 !f
        sw    $31,20($29)
        sw    $16,16($29)
        move  $16,$4 !f
        bne   $5,$0,L4  !s
ack_part_2:
        li    $5,1 !f
        addiu $4,$4,-1 !f
        jal   ack !f  !s
L1:
        lw    $31,20($29) !f
        lw    $16,16($29) !f
        addiu $29,$29,24 !f
        jr    $31  !s
L4:
        addiu $5,$5,-1 !f
        jal   ack !f  !s
ack_after_ack:
        move  $5,$2 !f
        addiu $4,$16,-1 !f
        jal   ack !f  !s
ack_after_ack_2:
        j     L1  !s
# recur.c:3: static void hanoi(int n,int a,int b,int c,int*cnt){if(!n)return;hanoi(n-1,a,c,b,cnt);*cnt+=a*100+c;h
hanoi:
        addiu $29,$29,-48 !f
        sw    $31,44($29)
        sw    $20,40($29)
        sw    $19,36($29)
        sw    $18,32($29)
        sw    $17,28($29)
        sw    $16,24($29)
        lw    $20,64($29) !f
        bne   $4,$0,L11  !s
L8:
        lw    $31,44($29) !f
        lw    $20,40($29) !f
        lw    $19,36($29) !f
        lw    $18,32($29) !f
        lw    $17,28($29) !f
        lw    $16,24($29) !f
        addiu $29,$29,48 !f
        jr    $31  !s
L11:
        move  $17,$5 !f
        move  $19,$6 !f
        move  $18,$7 !f
        addiu $16,$4,-1 !f
        sw    $20,16($29)
        move  $7,$6 !f
        move  $6,$18 !f
        move  $4,$16 !f
        jal   hanoi !f  !s
hanoi_after_hanoi:
        sll   $2,$17,1
        addu  $2,$2,$17
        sll   $2,$2,3
        addu  $2,$2,$17
        sll   $2,$2,2
        addu  $2,$2,$18
        lw    $3,0($20) !f
        addu  $2,$3,$2 !f
        sw    $2,0($20)
        sw    $20,16($29)
        move  $7,$18 !f
        move  $6,$17 !f
        move  $5,$19 !f
        move  $4,$16 !f
        jal   hanoi !f  !s
hanoi_after_hanoi_2:
        j     L8  !s
# recur.c:4: int main(void){out(ack(2,5));int c=0;hanoi(7,1,2,3,&c);out(c);return 0;}
main:
        addiu $29,$29,-40 !f
        sw    $31,36($29)
        li    $5,5 !f
        li    $4,2 !f
        jal   ack !f  !s
main_after_ack:
        out   $2
        sw    $0,24($29)
        addiu $2,$29,24 !f
        sw    $2,16($29)
        li    $7,3 !f
        li    $6,2 !f
        li    $5,1 !f
        li    $4,7 !f
        jal   hanoi !f  !s
main_after_hanoi:
        lw    $2,24($29)
        out   $2
        move  $2,$0 !f
        lw    $31,36($29) !f
        addiu $29,$29,40 !f
        jr    $31  !s

# The stack: 65536 bytes up to 0x10020000; data lie above it.
