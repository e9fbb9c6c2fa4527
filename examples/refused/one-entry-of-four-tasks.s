.task Main create=$8,$9 targets=Last
.task Last create=- targets=-
  .task Loop create=$8 targets=Last,Loop
.task Odd create=- targets=Last
Main:
  li $8,70000
  li $9,3 !s
Odd: Loop:
  addu $8,$8,$9 !f
  bne $8,$9,Loop !s
Last: halt
