# Operands that end too early, and a comma that is missing.
.task A create=$8 targets=A
A:  addu $8,$9
    addu $8
    addu
    addu $8,$9,
    addu $8 $9,$10
    lw   $8,4
    bne  $8
.task B create=$8
