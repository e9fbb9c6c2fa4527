# What C reaches by a call, where the program does not include multiscalar.h.

        .globl  out
out:
        out     $4
        jr      $31

# What main returns, or what exit is given, stands in $2 at the halt.
        .globl  exit
        .globl  _Exit
exit:
_Exit:
        move    $2,$4
        halt

        .globl  halt
halt:
        move    $2,$0
        halt

# Ends the run with a trap.
        .globl  abort
abort:
        break
