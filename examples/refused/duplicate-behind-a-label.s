.task A create=- targets=-
A: Loop:
  End: Loop: halt
