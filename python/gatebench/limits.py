"""Limits of gatebench (docs/SPEC.md), each of them allowed."""

# Bytes of a design text, and of a name.
MOST_TEXT, MOST_NAME = 4_194_304, 1_024

# A bound of a range, or an index.
MOST_BOUND = 65_535

# A delay of a gate, and a moment, in time units.
MOST_DELAY, MOST_TIME = 1_000_000, 1_099_511_627_776

# The parts that a window is cut into.
MOST_PARTS = 65_536

# A number of a command; what is above it counts as it.
GREATEST_NUMBER = 2**64 - 1
