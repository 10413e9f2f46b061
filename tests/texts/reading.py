"""What the tests of design texts share: a text is read by the built program, which says what it spells or refuses it.

A design is written on one line, as

    m: <a:wire y:wand / g nand 2 3 y a 1'b0

which is its name, then each net with its kind, an input behind `<`, then each gate, as the line `gate` of a session says it."""
from typing import List, Tuple

from ..support import Ended, WithTool

# A name that says what the row shows, a text, and the design that it spells or the line on which it is refused.
Rows = List[Tuple[str, str, str]]

# What asks for the nets, the inputs, the gates and the name of a design.
QUESTIONS = "nets\ninputs\ngates\nvcd\n"


class WithTexts(WithTool):
    """A test of design texts."""

    def read(self, text: str, *words: str) -> Ended:
        """How gatebench ends that reads this text, with these words behind it."""
        return self.as_gatebench([self.write("text.v", text), *words], "quit\n")

    def design_of(self, text: str, *words: str) -> str:
        """The design that a text spells."""
        ended = self.run_with([self.write("text.v", text), "--horizon=0", *words], QUESTIONS)
        self.assertEqual((ended.status, ended.said), (0, ""), text[:200])
        nets, inputs, gates, dump, rest = (part.splitlines() for part in ended.printed.split("ok 0\n"))
        self.assertEqual((inputs, rest), ([net for net in nets if net in inputs], []), text[:200])
        shown = [("<" if net in inputs else "") + net.replace(" ", ":") for net in nets]
        return " / ".join([" ".join([f"{dump[2].split()[2]}:", *shown]), *gates])

    def check(self, text: str, want: str, *words: str) -> None:
        """The text spells this design, or is refused with this line."""
        if want.startswith("line "):
            self.assertEqual(self.read(text, *words), Ended(1, "", f"{want}\n"), text[:200])
        else:
            self.assertEqual(self.design_of(text, *words), want, text[:200])

    def check_rows(self, rows: Rows) -> None:
        for name, text, want in rows:
            with self.subTest(name):
                self.check(text, want)

    def check_fault(self, text: str, fault: str) -> None:
        """The text has this fault on its second line, or spells a design where there is none."""
        wanted = Ended(1, "", f"line 2: {fault}\n") if fault else Ended(0, "ok 0\n", "")
        self.assertEqual(self.read(text), wanted, text[:200])
