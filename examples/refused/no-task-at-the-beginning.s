.task B create=- targets=-
A: nop
B: j A !s
