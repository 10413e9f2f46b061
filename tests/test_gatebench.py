"""The program gatebench: what its words ask for, which words it refuses, and how it ends."""
import os
import unittest
from typing import Union

from .support import MAX_TEXT, Ended, WithProgram

BUFFER = "module m(input a, output y); buf g(y, a); endmodule\n"
NO_DESIGN = "error: the following required arguments were not provided:\n  <DESIGN>\n\n"


class Gatebench(WithProgram):
    variable = "GATEBENCH"

    def setUp(self) -> None:
        super().setUp()
        self.write("d.v", "module m(input a, output y); buf #1 g(y, a); endmodule\n")


class Words(Gatebench):
    def horizon_of(self, *words: str) -> int:
        """The last moment that a wave tells of, where a net changes at every moment that the table below asks for."""
        moments = (0, 4, 5, 6, 7, 8, 999, 1000, 1001, 1_099_511_627_776)
        stimulus = "".join(f"stim a {moment} {place % 2}\n" for place, moment in enumerate(moments))
        ended = self.run_with(list(words), stimulus + "wave a\n")
        self.assertEqual((ended.status, ended.said), (0, ""), words)
        changes = [line for line in ended.printed.splitlines() if not line.startswith("ok")]
        return int(changes[-1].split()[0])

    def test_the_horizon(self) -> None:
        wanted = {
            ("d.v",): 1000,
            ("d.v", "--horizon", "5"): 5,
            ("--horizon", "5", "d.v"): 5,
            ("d.v", "--horizon=5"): 5,
            ("--horizon=0", "d.v"): 0,
            ("--horizon=1099511627776", "d.v"): 1_099_511_627_776,
            ("--horizon=00000000000000000000007", "d.v"): 7,
            ("d.v", "--horizon", "999"): 999,
            ("--workers", "7", "d.v", "--horizon=4"): 4,
        }
        for words, horizon in wanted.items():
            self.assertEqual(self.horizon_of(*words), horizon, words)

    def test_the_name_of_the_design(self) -> None:
        for name, words in {"--odd": ["--", "--odd"], "5": ["5"], "a b.v": ["a b.v"]}.items():
            self.write(name, BUFFER)
            self.assertEqual(self.run_with([*words], "quit\n").said, "line 1: 11 ZeroDelay\n")

    def delayed(self, *words: str) -> Ended:
        return self.run_with(list(words), "stim a 0 1\nhorizon 1000000\nwave y\n")

    def test_the_delay_of_gates_that_have_none(self) -> None:
        self.write("b.v", BUFFER)
        self.assertEqual(self.delayed("b.v"), Ended(1, "", "line 1: 11 ZeroDelay\n"))
        for words, delay in {("--delay=3", "b.v"): 3, ("b.v", "--delay", "1"): 1, ("--delay=1000000", "b.v"): 1_000_000,
                             ("--horizon=4", "--delay", "03", "b.v"): 3}.items():  # fmt: skip
            self.assertEqual(self.delayed(*words), Ended(0, f"ok 1\nok 2\n0 x\n{delay} 1\nok 2\n", ""), words)

    def test_the_number_of_workers_changes_no_byte(self) -> None:
        gates = "".join(f"not #1 g{place}(y{place}, a);\n" for place in range(4096))
        self.write("inverters.v", f"module m(input a);\n{gates}endmodule\n")
        commands = "stim a 0 0\nstim a 3 1\nwave y0\nwave y4095\nstim a 5 x\nwave y2047\nvcd\n"
        alone = self.run_with(["inverters.v", "--horizon", "10", "--workers", "1"], commands)
        first = "ok 1\nok 2\n0 x\n1 1\n4 0\nok 2\n0 x\n1 1\n4 0\nok 2\nok 3\n0 x\n1 1\n4 0\n6 x\nok 3\n"
        self.assertTrue(alone.printed.startswith(first))
        self.assertGreater(alone.printed.count("\n"), 4096)
        for workers in ("2", "4", "63", "64", "0064"):
            self.assertEqual(self.run_with(["inverters.v", "--horizon=10", "--workers", workers], commands), alone, workers)

    def test_each_change_of_many_nets(self) -> None:
        """The changes of so many nets are kept together for a while, and then written net by net."""
        gates = "".join(f"not #1 g{place}(y{place}, a);\n" for place in range(4200))
        self.write("many.v", f"module m(input a);\n{gates}endmodule\n")
        points = "".join(f"stim a {moment} {moment % 2}\n" for moment in range(40))
        waves = "wave y0\nwave y2100\nwave y4199\n"
        changes = "".join(f"{moment + 1} {1 - moment % 2}\n" for moment in range(40))
        ended = self.run_with(["many.v", "--horizon", "40"], f"begin\n{points}commit\n{waves}")
        self.assertEqual((ended.status, ended.said), (0, ""))
        self.assertTrue(ended.printed.endswith("ok 1\n" + 3 * f"0 x\n{changes}ok 1\n"))


class RefusedWords(Gatebench):
    def test_each_is_named(self) -> None:
        horizon = "--horizon <H>'\n  [possible values: 0 to 1099511627776, in digits alone]\n\n"
        workers = "--workers <N>'\n  [possible values: 1 to 64, in digits alone]\n\n"
        delay = "--delay <D>'\n  [possible values: 1 to 1000000, in digits alone]\n\n"
        wanted = {
            ("--help",): "",
            ("-h",): "",
            ("d.v", "--help"): "",
            ("d.v", "-h"): "",
            (): NO_DESIGN,
            ("--horizon=5",): NO_DESIGN,
            ("--workers=2",): NO_DESIGN,
            ("d.v", "--foo"): "error: unexpected argument '--foo' found\n\n  tip: to pass '--foo' as a value, use '-- --foo'\n\n",
            ("d.v", "e.v"): "error: unexpected argument 'e.v' found\n\n",
            ("d.v", "--horiz=5"): "error: unexpected argument '--horiz' found\n\n  tip: a similar argument exists: '--horizon'\n\n",
            ("d.v", "--horizon"): "error: a value is required for '--horizon <H>' but none was supplied\n\n",
            ("d.v", "--workers"): "error: a value is required for '--workers <N>' but none was supplied\n\n",
            ("d.v", "--delay"): "error: a value is required for '--delay <D>' but none was supplied\n\n",
            ("d.v", "--horizon=5", "--horizon=5"): "error: the argument '--horizon <H>' cannot be used multiple times\n\n",
            ("d.v", "--workers=2", "--workers=2"): "error: the argument '--workers <N>' cannot be used multiple times\n\n",
            ("d.v", "--delay=1", "--delay=1"): "error: the argument '--delay <D>' cannot be used multiple times\n\n",
            ("d.v", "--horizon", "abc"): f"error: invalid value 'abc' for '{horizon}",
            ("d.v", "--horizon=1099511627777", "--delay=0"): f"error: invalid value '1099511627777' for '{horizon}",
            ("d.v", "--delay=0", "--workers", "65"): f"error: invalid value '65' for '{workers}",
            ("d.v", "--workers=two", "--horizon=x"): f"error: invalid value 'x' for '{horizon}",
        }
        for value in ("", "+5", "-5", "1099511627777", "18446744073709551621", "5x", " 5"):
            wanted["d.v", f"--horizon={value}"] = f"error: invalid value '{value}' for '{horizon}"
        for value in ("", "0", "65", "4294967297", "18446744073709551617", "+2", "2,"):
            wanted["d.v", f"--workers={value}"] = f"error: invalid value '{value}' for '{workers}"
        for value in ("", "0", "1000001", "4294967297", "+1", "1,2"):
            wanted["d.v", f"--delay={value}"] = f"error: invalid value '{value}' for '{delay}"
        for words, lines in wanted.items():
            self.check_refused_words(list(words), lines)

    def test_a_word_that_is_no_text(self) -> None:
        self.check_refused_words([b"\xff.v"], "error: invalid UTF-8 was detected in one or more arguments\n\n")

    def test_the_help(self) -> None:
        said = self.help_text()
        self.assertTrue(said.startswith("Usage: gatebench DESIGN [--horizon H] [--workers N] [--delay D]\n"))
        self.assertIn("    module m(input a, output y); not #(2,3) g(y, a); endmodule\n", said)
        self.assertIn("docs/GUIDE.md", said)
        self.assertLessEqual(len(said.splitlines()), 20)


def levels(count: int, instances: str = "u()") -> str:
    """Modules `c1`, `c2` and so on, one a line, each with these instances of the next one."""
    lines = [f"module c{level}; c{level + 1} {instances}; endmodule\n" for level in range(1, count)]
    return "".join([*lines, f"module c{count}; endmodule\n"])


def crowded(more: str) -> str:
    """65,536 nets, as many as there may be, of 256 instances, and this in the module at the top, which stands on line 2."""
    nets, instances = (", ".join(f"{letter}{place}{end}" for place in range(256)) for letter, end in (("n", ""), ("u", "()")))
    inner = "module j(p); input p; wand p; endmodule " if "j " in more else ""
    return f"{inner}module k; wire {nets}; endmodule\nmodule m; {more} k {instances}; endmodule\n"


class Texts(Gatebench):
    def check(self, text: Union[str, bytes], wanted: Ended) -> None:
        self.write("text.v", text)
        self.assertEqual(self.run_with(["text.v"], "quit\n"), wanted, text[:80])

    def test_each_is_refused_at_its_line(self) -> None:
        wanted = {
            b"module m;\n\n": "line 3: 2 Syntax",
            b"module m(a);\n\x80": "line 2: 1 Text",
            b"module m; always": "line 1: 3 Unsupported",
            b"": "line 1: 6 NoTop",
            b" " * (MAX_TEXT + 1): "line 1: 1 Text",
        }
        for text, line in wanted.items():
            self.check(text, Ended(1, "", line + "\n"))

    def test_levels_of_modules(self) -> None:
        """32 are as many as there may be, and with two instances in each there are more than 65,536 of these."""
        self.check(levels(32), Ended(0, "ok 0\n", ""))
        for text in (levels(33), levels(32, "u(), w()")):
            self.check(text, Ended(1, "", "line 1: 11 TooMany\n"))

    def test_what_comes_before_too_many_nets(self) -> None:
        """A net more is one too many; but a port of another rule, or a name over 1,024 bytes, is told first wherever it stands."""
        self.check(crowded(""), Ended(0, "ok 0\n", ""))
        wanted = {
            "wire w;": "11 TooMany",
            "wand w; j v(w), x(w);": "11 TooMany",
            "wire w; j v(w);": "9 PortKind",
            "wand w; wire y; j v(w), x(y);": "9 PortKind",
            f"k {'v' * 1019}();": "11 TooMany",
            f"k {'v' * 1020}();": "11 BadName",
            f"wire w; j v(w); k {'v' * 1020}();": "9 PortKind",
        }
        for more, kind in wanted.items():
            self.check(crowded(more), Ended(1, "", f"line 2: {kind}\n"))


class Commands(Gatebench):
    def setUp(self) -> None:
        super().setUp()
        self.write("d.v", "module m(a,y); input a; output y; buf #(3,3) g(y,a); endmodule")

    def check(self, commands: str, replies: str) -> None:
        self.assertEqual(self.run_with(["d.v", "--horizon", "1000"], commands), Ended(0, replies, ""))

    def test_large_numbers_and_held_names(self) -> None:
        wanted = {
            "stim a 99999999999999999999 1": "no 11 TimeTooLarge",
            "delay g 99999999999999999999 1": "no 6 DelayTooLarge",
            "wave q": "no 1 UnknownNet",
            "hold k": "ok 0",
            "at k at k wave y": "no 16 BadCommand",
            "at q wave y": "no 18 UnknownHold",
        }
        self.check("".join(line + "\n" for line in wanted), "".join(reply + "\n" for reply in wanted.values()))

    def test_the_edits_of_a_batch(self) -> None:
        """4,096 are kept, and committed though a further one was refused."""
        commands = "begin\n" + "stim a 0 1\n" * 4097 + "commit\n"
        self.check(commands, "ok 0\n" * 4097 + "no 13 TooMany\nok 1\n")


class Files(Gatebench):
    def read(self, name: str) -> Ended:
        return self.run_with([name], "quit\n")

    def test_a_design_up_to_the_limit(self) -> None:
        for length, ended in ((MAX_TEXT, Ended(0, "ok 0\n", "")), (MAX_TEXT + 1, Ended(1, "", "line 1: 1 Text\n"))):
            self.write("long.v", BUFFER.replace("buf", "buf #1").ljust(length))
            self.assertEqual(self.read("long.v"), ended)

    def test_a_design_without_an_end_is_not_read_to_its_end(self) -> None:
        self.assertEqual(self.read("/dev/zero"), Ended(1, "", "line 1: 1 Text\n"))

    def test_a_refused_design(self) -> None:
        self.write("refused.v", "module m;\nendmodule m")
        self.assertEqual(self.read("refused.v"), Ended(1, "", "line 2: 2 Syntax\n"))

    def test_a_design_that_can_not_be_read(self) -> None:
        for name in ("nobody.v", "."):
            self.assertEqual(self.read(name), Ended(3, "", "read failed\n"))


class Ends(Gatebench):
    def test_commands_that_can_not_be_read(self) -> None:
        folder = os.open(self.folder, os.O_RDONLY)
        self.addCleanup(os.close, folder)
        self.assertEqual(self.run_with(["d.v"], stdin=folder), Ended(3, "", "read failed\n"))

    def test_replies_that_can_not_be_written(self) -> None:
        with open("/dev/full", "wb") as full:
            self.assertEqual(self.run_with(["d.v"], "stim a 0 0\n", stdout=full), Ended(3, "", "write failed\n"))
            # What can't be said is passed over.
            self.assertEqual(self.run_with(["d.v"], "stim a 0 0\n", stdout=full, stderr=full).status, 3)
            self.assertEqual(self.run_with(["--help"], stderr=full).status, 2)

    def test_a_design_for_which_there_is_no_memory(self) -> None:
        names = ", ".join(f"n{place}" for place in range(60_000))
        self.write("wide.v", f"module m;\nwire {names};\nendmodule\n")
        self.assertEqual(self.run_within(1 << 30, ["wide.v"], "quit\n"), Ended(0, "ok 0\n", ""))
        self.assertEqual(self.run_within(1 << 24, ["wide.v"], "quit\n"), Ended(3, "", "out of memory\n"))

    def test_edits_beside_many_drivers_of_one_net(self) -> None:
        """They cost what the drivers do, and not their square, in time and memory."""
        gates = ", ".join(f"g{place}(y, a)" for place in range(65_536))
        self.write("many.v", f"module m(input a, output y);\nnot #1 {gates};\nendmodule\n")
        commands = "stim a 0 0\nstim a 2 1\nwave y\ndrop g5\nwave y\n"
        wave = "0 x\n1 1\n3 0\n"
        ended = self.run_within(1 << 28, ["many.v", "--horizon", "5"], commands)
        self.assertEqual(ended, Ended(0, f"ok 1\nok 2\n{wave}ok 2\nok 3\n{wave}ok 3\n", ""))


if __name__ == "__main__":
    unittest.main()
