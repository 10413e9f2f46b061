"""A design of which edits are refused."""

# The inputs a and b, a net y that g drives, a net n that h drives and reads, and a net u that no gate is at.
DESIGN = (
    "input a; input b; net y wire; net n wire; net u wor; gate g buf 3 3 y a; gate h nand 1 1 n b n; stim a 0 0; stim a 10 1"
)
