.task A create=- targets=-
A: j A
