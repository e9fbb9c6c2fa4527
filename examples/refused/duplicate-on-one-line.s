.task A create=- targets=-
A: End: A: halt
