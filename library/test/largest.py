"""A program at the limits: 4,096 instructions, whose task writes over and over what it forwards."""

print(".task A create=$8,$9 targets=-\nA:")
for index in range(4095):
    print(f"        addiu ${8 + index % 2}, ${8 + index % 2}, {index}")
print("        halt")
