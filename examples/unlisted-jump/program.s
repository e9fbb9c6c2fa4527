# A jump to an address that the task's descriptor does not list.
#
# The plain machine follows the jump and prints the address of D. The
# multiscalar machine ends the run as unlisted: A lists no target, and where
# `jr` goes is known only when it runs.

.task A create=$31 targets=-

A:
        la    $31, D            # two instructions, lui and ori
        jr    $31         !s
        halt
D:
        out   $31
        halt
