# A task that never ends: its jump has no stop mark, so it stays inside.

.task A create=- targets=-

A:
        j     A
