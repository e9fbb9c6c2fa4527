.task A create=$0 targets=-
A: halt
