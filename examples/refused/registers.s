# Registers without their $, and numbers where a register is wanted, which may be meant as numbers.
.task A create=$8 targets=A
A:  addu r8,r9,r10
    addu t0,$9,$10
    addu $T0,$9,$10
    addu $8,$9,1
    addiu $8 !f,$8,1
