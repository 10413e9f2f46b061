"""Vectors as hexadecimal numbers."""


def hexadecimal(bits: str) -> str:
    """Bits as a hexadecimal number. A digit is z where its bits are, and x where one of them is x or z else."""
    padded = "0" * (-len(bits) % 4) + bits
    first = len(bits) % 4 or 4
    digits = [bits[:first], *(padded[it : it + 4] for it in range(4, len(padded), 4))]
    return "".join(digit_of(it) for it in digits)


def digit_of(bits: str) -> str:
    if set(bits) <= {"0", "1"}:
        return format(int(bits, 2), "x")
    return "z" if set(bits) == {"z"} else "x"
