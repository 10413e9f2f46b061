"""Tokens of a text laid out with white space between them, and texts that are mangled token by token or byte by byte."""
import re

from reading.tables import VERILOG

SPACES = [" "] * 24 + ["\n"] * 8 + ["\t", "\r\n", "\f", "  \n", "// c\n", "/* c */", "(* c *)", "/* \n */", "(* \n*)", "//\n",
                                    "/**/", "(**)", "/*/ */", "(*) *)", "// /*\n", "/* // */", "/* (* */"]  # fmt: skip
# What a token is replaced by: each word and mark of the grammar, and what does not belong to it.
TOKENS = """
    module endmodule input output wire tri wand triand wor trior tri0 tri1 and or xor nand nor xnor buf not bufif1 bufif0 notif1
    notif0 ( ( ) ) , , ; ; . # [ ] : a b c y g u v m k 0 1 2 3 10 65535 65536 1000000 1000001 4294967295 4294967296 007 1_0
    1'b0 1'b1 1'bx 1'bz 1'BX 1'b2 2'b0 assign always reg initial inout supply0 parameter nmos tran pullup = + { } ? ' " @ ` \\
    \\a \\a[0] \\a.b \\$end \\module \\$1 \\g$1 $1 a$1 g$1 _ `timescale `define (* *) /* */ // (*) /*/ \\\\ é
""".split()
TOKENS += ["`timescale 1ns/1ps", "`timescale 10 us / 1 us", "`timescale 1ns / 1", "`timescale 2ns/1ns", "99999999999999999999"]
TOKENS += VERILOG.split()[::3]
BYTES = [0, 1, 8, 9, 10, 11, 12, 13, 27, 32, 33, 36, 39, 40, 41, 42, 44, 46, 47, 48, 58, 59, 91, 92, 93, 96, 126, 127, 128, 255]
WORDLIKE = re.compile(r"[A-Za-z0-9_$'`]")


def join(rng, tokens, plain):
    """A text of these tokens; where it is `plain` there is one blank or line end between most of them."""
    made, last = [], ""
    for token in tokens:
        apart = last.startswith("\\") or (WORDLIKE.match(last[-1:]) and WORDLIKE.match(token[:1]))
        if last == ";" and rng.random() < 0.7:
            made.append("\n")
        elif plain:
            made.append(" " if apart else "")
        elif apart or rng.random() < 0.3:
            made.append(rng.choice(SPACES))
        made.append(token)
        last = token
    return "".join([*made, rng.choice(["", "\n", "\n", "\n", " ", "// c", "\n\n"])])


def change_token(rng, tokens):
    """One token is left out, said twice, put elsewhere or replaced by another one."""
    place, other = rng.randrange(len(tokens)), rng.randrange(len(tokens))
    way = rng.randrange(6)
    if way == 0:
        del tokens[place]
    elif way == 1:
        tokens.insert(place, tokens[place])
    elif way == 2:
        tokens[place], tokens[other] = tokens[other], tokens[place]
    elif way == 3:
        tokens.insert(place, rng.choice(TOKENS))
    elif way == 4:
        tokens[place] = tokens[other]
    else:
        tokens[place] = rng.choice(TOKENS)
    return tokens


def change_bytes(rng, text):
    """One byte or a few are left out, added or replaced."""
    place, length = rng.randrange(len(text) + 1), rng.choice([1, 1, 1, 2, 5, 20])
    way = rng.randrange(5)
    if way == 0:
        return text[:place] + text[place + length :]
    if way == 1:
        return text[:place] + bytes([rng.choice(BYTES)]) + text[place:]
    if way == 2:
        return text[:place] + bytes([rng.choice(BYTES)]) + text[place + 1 :]
    if way == 3:
        other = rng.randrange(len(text) + 1)
        return text[:place] + text[other : other + length] + text[place:]
    return text[:place]
