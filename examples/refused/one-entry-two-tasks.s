.task A create=- targets=-
.task B create=- targets=-
A: B: halt
