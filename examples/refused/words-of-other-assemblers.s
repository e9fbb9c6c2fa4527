# Words that other assemblers have, and this one has not.
.task A create=$8,$9 targets=A
A:  ble   $8,$9,A
    bge   $8,$9,A
    bnez  $8,A
    b     A
    add   $8,$9,$10
    addi  $8,$9,1
    mul   $8,$9,$10
    div   $8,$9
    break
    syscall
.section .text
.data
S:  .asciiz 5
