.task B create=- targets=-
A: halt
B:
