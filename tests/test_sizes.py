"""Sizes up to each limit, and odd ones between: with memory enough nothing is answered as out of memory, or in any other way
than the sizes beside it."""
import unittest

from .support import MAX_TEXT, Ended
from .test_gaterace import Gaterace, right
from .test_gatebench import Gatebench

MAX_LINE = 4096
MAX_NAME = 1024
MAX_EDITS = 4096
MAX_HELD = 64
MAX_NETS = 65_536
POINTS = 8193
# Powers of two with their neighbours, and some sizes that are near none.
ODD = sorted({max(0, (1 << power) + by) for power in range(17) for by in (-1, 0, 1)} | {100, 999, 1000, 3001, 4001, 4242, 30_003})


def inverters(count: int) -> str:
    gates = "".join(f"not #1 g{place}(y{place}, a);\n" for place in range(count))
    return f"module m(input a);\n{gates}endmodule\n"


class Texts(Gatebench):
    def check(self, text: str, commands: str, printed: str) -> None:
        self.write("sized.v", text)
        self.assertEqual(self.run_with(["sized.v"], commands), Ended(0, printed, ""), len(text))

    def test_lengths(self) -> None:
        text = "module m(input a); endmodule"
        for length in [len(text), *(it for it in ODD if it > len(text)), 1_000_003, 2_097_152, MAX_TEXT - 1, MAX_TEXT]:
            self.check(text.ljust(length), "stim a 3 1\nwave a\n", "ok 1\n0 x\n3 1\nok 1\n")

    def test_numbers_of_nets_and_gates(self) -> None:
        for count in [it for it in ODD if 0 < it < MAX_NETS]:
            wave = f"wave y{count - 1}\n"
            self.check(inverters(count), f"stim a 3 1\n{wave}net n wire\ndropnet n\n{wave}", self.waves(count))

    def waves(self, count: int) -> str:
        """The replies where there are so many inverters: with the input one net more has no place at the limit."""
        is_full = count + 1 == MAX_NETS
        added = ["no 13 TooMany", "no 1 UnknownNet"] if is_full else ["ok 2", "ok 3"]
        version = 1 if is_full else 3
        return "".join(f"{it}\n" for it in ["ok 1", "0 x", "4 0", "ok 1", *added, "0 x", "4 0", f"ok {version}"])


class Commands(Gatebench):
    def check(self, commands: str, printed: str) -> None:
        self.assertEqual(self.run_with(["d.v"], commands), Ended(0, printed, ""))

    def test_lengths_of_lines(self) -> None:
        edit = "stim a 3 1"
        lengths = range(len(edit), MAX_LINE + 1)
        self.check("".join(edit.ljust(it) + "\n" for it in lengths), "".join(f"ok {it + 1}\n" for it in range(len(lengths))))

    def test_lengths_of_names(self) -> None:
        names = ["n" * length for length in range(1, MAX_NAME + 1)]
        nets = "".join(f"input {it}\n" for it in names)
        self.check(nets, "".join(f"ok {place + 1}\n" for place in range(MAX_NAME)))
        held = "".join(f"hold {it}\nat {it} wave a\nfree {it}\n" for it in names)
        self.check(held, "ok 0\n0 x\nok 0\nok 0\n" * MAX_NAME)

    def test_batches(self) -> None:
        sizes = [*range(130), *(it for it in ODD if 130 <= it <= MAX_EDITS)]
        commands = printed = ""
        for version, size in enumerate(sizes):
            commands += "begin\n" + "".join(f"stim a {place} {place % 2}\n" for place in range(size)) + "commit\nvalue a 0\n"
            value = "0" if version else "x"
            printed += f"ok {version}\n" * (size + 1) + f"ok {version + 1}\n{value}\nok {version + 1}\n"
        self.check(commands, printed)

    def test_held_snapshots(self) -> None:
        commands = printed = ""
        for count in range(MAX_HELD):
            commands += f"hold k{count}\nstim a {count} {count % 2}\n"
            printed += f"ok {count}\nok {count + 1}\n"
        commands += "hold more\n" + "".join(f"at k{count} prev a 1000\n" for count in range(MAX_HELD))
        changes = "".join(f"{it} {it % 2}\nok {it + 1}\n" for it in range(MAX_HELD - 1))
        self.check(commands, f"{printed}no 13 TooMany\n0 x\nok 0\n{changes}")

    def test_points(self) -> None:
        """Each by a commit of its own. The limit, of 1,048,576, is asked of a design and not of the program."""
        points = range(POINTS)
        self.check("".join(f"stim a {it} {it % 2}\n" for it in points), "".join(f"ok {it + 1}\n" for it in points))


class Scripts(Gaterace):
    def test_lengths(self) -> None:
        for lines in [*(it for it in ODD if it <= 1025), 4001]:
            edits = "".join(f"stim a {place} {place % 2}\n" for place in range(lines))
            self.assertEqual(self.race(edits, 1, 1), right(1), lines)

    def test_batches(self) -> None:
        sizes = [*range(130), *(it for it in ODD if 130 <= it <= MAX_EDITS)]
        edits = "".join("begin\n" + "stim a 7 1\n" * size + "commit\n" for size in sizes)
        self.assertEqual(self.race(edits, 1, 1), right(1))


if __name__ == "__main__":
    unittest.main()
