# Adds up the first four even numbers, in a loop that is one task.

.task LOOP create=- targets=-

LOOP:
        addiu $8, $8, 1         # the number of this iteration
        sll   $9, $8, 1         # twice that number
        addu  $10, $10, $9      # the sum so far
        slti  $11, $8, 4        # 1 while iterations are left
        bne   $11, $0, LOOP
        out   $10
        halt
