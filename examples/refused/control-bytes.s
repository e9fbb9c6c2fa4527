# A byte that steers a terminal is shown by its number, a letter as it is.
.task A create=- targets=A
A: nop [31m
   nop é
