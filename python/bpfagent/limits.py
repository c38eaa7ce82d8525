"""The limits of an agent, as docs/PROTOCOL.md has them."""

# How many machines and objects an agent makes in its life.
MACHINES, OBJECTS = 48, 1024
# The most slots of a program, and the most bytes of an object.
SLOTS, LONGEST = 4096, 65_536
# How many bytes a machine's stack has.
STACK_SIZE = 4096
# The greatest value of a register.
WORD = (1 << 64) - 1
# The number of a program's arguments, and the most grants of a machine.
ARGUMENTS, GRANTS = 5, 16
# The most bytes of one `put` or `get`, and of a watched range.
PIECE = 4096
# The most bytes of a line, its end not counted.
LINE = 70_000
