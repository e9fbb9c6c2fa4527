.task A create=- targets=-
.start A
A: halt
B: .start B
