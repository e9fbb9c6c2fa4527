.task A create=- targets=-
A: halt
.data
  .space 65536
.rodata
R: .space 65533
  .word 7
  .space 1
