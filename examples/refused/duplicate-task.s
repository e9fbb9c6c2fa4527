.task A create=$8 targets=-
.start A
.task A create=- targets=-
A: halt
