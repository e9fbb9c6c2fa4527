.task A create=- targets=-
A:
        out   $8
        lw    $8, 2($0)
        halt
