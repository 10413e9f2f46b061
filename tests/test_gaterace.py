"""The program gaterace: the scripts that it takes, the words that it refuses, and how it ends."""
import unittest

from .support import Ended, WithProgram

BUFFER = "module m(a,y); input a; output y; buf #(3,3) g(y,a); endmodule\n"
SCRIPT = "stim a 0 0\nstim a 10 1\nbegin\nstim a 20 0\ndelay g 3 4\ncommit\nwave y\n"
MAX_EDITS = 4096
MAX_LINE = 4096


class Gaterace(WithProgram):
    variable = "GATERACE"

    def race(self, script: str, viewers: int = 2, looks: int = 3, design: str = BUFFER) -> Ended:
        """A race of so many viewers with so many looks each."""
        files = [self.write("d.v", design), self.write("s", script)]
        return self.run_with([*files, str(viewers), str(looks)])


def right(looks: int) -> Ended:
    return Ended(0, f"looks {looks} wrong 0\n", "")


class Scripts(Gaterace):
    def test_every_look_of_every_viewer(self) -> None:
        self.assertEqual(self.race(SCRIPT, 3, 50), right(150))
        self.assertEqual(self.race(SCRIPT, 64, 2), right(128))
        self.assertEqual(self.race(SCRIPT, 1, 70), right(70))

    def test_without_a_fault(self) -> None:
        for script in (
            "",
            "\n",
            "stim a 0 1",
            "# a comment\n\n \t\nquit\nstim a 0 1\nvcd\r\nhold k\nfree z\nat k wave y\n",
            "begin\nstim a 0 1\n",
            "begin\nabort\nbegin\ncommit\n",
            "dropnet y\nbegin\nstim a 5 1\nstim y 5 1\ncommit\nstim b 0 1\nstim a 0 1\n",
        ):
            self.assertEqual(self.race(script), right(6), script)

    def test_the_first_bad_line(self) -> None:
        for script, line in {
            SCRIPT + "frob\n": 8,
            "frob": 1,
            "\n# no\nstim a 0\nfrob\n": 3,
            "quit\nstim a 0 0\nstim a 0 7\n": 3,
            "begin\nbegin\n": 2,
            "begin\ncommit\ncommit\n": 3,
            "abort\n": 1,
        }.items():
            self.assertEqual(self.race(script), Ended(1, "", f"script line {line}\n"), script)

    def test_the_longest_batch(self) -> None:
        edit = "stim a 7 1\n"
        self.assertEqual(self.race(f"begin\n{edit * MAX_EDITS}commit\n"), right(6))
        self.assertEqual(self.race(f"begin\n{edit * (MAX_EDITS + 1)}commit\n"), Ended(1, "", f"script line {MAX_EDITS + 2}\n"))

    def test_the_longest_line(self) -> None:
        self.assertEqual(self.race("#" * MAX_LINE, 1, 1), right(1))
        self.assertEqual(self.race("#" * (MAX_LINE + 1), 1, 1), Ended(1, "", "script line 1\n"))

    def test_the_design_comes_first(self) -> None:
        self.assertEqual(self.race("frob", design="module m;\nendmodule m"), Ended(1, "", "line 2: 2 Syntax\n"))


class RefusedWords(Gaterace):
    def test_each_is_named(self) -> None:
        missing = "error: the following required arguments were not provided:\n"
        viewers = "<VIEWERS>'\n  [possible values: 1 to 64, in digits alone]\n\n"
        looks = "<LOOKS>'\n  [possible values: 1 to 1000000, in digits alone]\n\n"
        for words, lines in {
            ("--help",): "",
            (): f"{missing}  <DESIGN>\n  <SCRIPT>\n  <VIEWERS>\n  <LOOKS>\n\n",
            ("d.v", "s", "3"): f"{missing}  <LOOKS>\n\n",
            ("d.v", "s", "0", "5"): f"error: invalid value '0' for '{viewers}",
            ("d.v", "s", "65", "0"): f"error: invalid value '65' for '{viewers}",
            ("d.v", "s", "1", "0"): f"error: invalid value '0' for '{looks}",
            ("d.v", "s", "1", "1000001"): f"error: invalid value '1000001' for '{looks}",
            ("d.v", "s", "+1", "1"): f"error: invalid value '+1' for '{viewers}",
            ("d.v", "s", "1", "1", "1"): "error: unexpected argument '1' found\n\n",
        }.items():
            self.check_refused_words(list(words), lines)


class Ends(Gaterace):
    def test_a_result_that_can_not_be_written(self) -> None:
        self.write("d.v", BUFFER)
        self.write("s", SCRIPT)
        with open("/dev/full", "wb") as full:
            self.assertEqual(self.run_with(["d.v", "s", "1", "1"], stdout=full), Ended(3, "", "write failed\n"))

    def test_a_design_for_which_there_is_no_memory(self) -> None:
        names = ", ".join(f"n{place}" for place in range(60_000))
        self.write("wide.v", f"module m;\nwire {names};\nendmodule\n")
        self.write("s", "")
        self.assertEqual(self.run_within(1 << 24, ["wide.v", "s", "1", "1"]), Ended(3, "", "out of memory\n"))

    def test_files_that_can_not_be_read(self) -> None:
        self.write("d.v", BUFFER)
        for words in (["nobody.v", "s", "1", "1"], ["d.v", "nobody", "1", "1"]):
            self.assertEqual(self.run_with(words), Ended(3, "", "read failed\n"))


if __name__ == "__main__":
    unittest.main()
