# A task and a jump that name a label of data.
.task D create=- targets=D
.task A create=- targets=A
A:  j D
.data
D:  .word 1
