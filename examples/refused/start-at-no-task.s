.task A create=$8 targets=-
.start B
A: nop
B: j A !s
