.task A create=- targets=-
A:
