"""A program of 200 instructions with right marks: 20 tasks, each a loop with a branch in it."""

TASKS = 20
BODY = """T{task}:
        addiu $8, $8, 1 !f
        sll   $11, $8, 2
        addu  $9, $9, $11 !f
        andi  $12, $8, 1 !f
        beq   $12, $0, E{task}
        addu  $10, $10, $8
E{task}:
        xor   $11, $11, $9 !f
        slti  $13, $8, 9 !f
        addu  $10, $10, $11 !f"""

for task in range(TASKS):
    print(f".task T{task} create=$8,$9,$10,$11,$12,$13 targets={f'T{task},T{task + 1}' if task + 1 < TASKS else '-'}")
for task in range(TASKS):
    print(BODY.format(task=task))
    print(f"        bne   $13, $0, T{task} !s" if task + 1 < TASKS else "        halt")
