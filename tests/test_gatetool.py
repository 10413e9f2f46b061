"""Tests of gatetool: gatebench under its other name, with the questions of tools."""
import os
import unittest

from .support import MAX_TEXT, Ended, WithTool

DESIGN = """module m(input a, b, output y, z);
  nand #(2,3) g(y, a, b);
  bufif1 #(1,2,4) t(z, y, a);
  xor #1 u(y2, 1'b1, y, b);
endmodule
"""

POINTS = ("a 0 1", "b 0 1", "b 10 0", "a 20 0", "b 30 1")


class Gatetool(WithTool):
    def setUp(self) -> None:
        super().setUp()
        self.given(DESIGN, *POINTS)

    def check_refused(self, line: str, why: str) -> None:
        self.assertEqual(self.ask(line, "hold k", f"at k {line}"), f"no {why}\nok 1\nno {why}\n")


class Designs(Gatetool):
    def test_nets(self) -> None:
        self.check("nets", "a wire", "b wire", "y wire", "z wire", "y2 wire")
        self.check("inputs", "a wire", "b wire")
        self.assertEqual(self.ask("kind z tri1", "net n wor", "nets"), "ok 2\nok 3\na wire\nb wire\ny wire\nz tri1\ny2 wire\nn wor\nok 3\n")

    def test_gates(self) -> None:
        self.check("gates", "g nand 2 3 y a b", "t bufif1 1 2/4 z y a", "u xor 1 1 y2 1'b1 y b")
        self.check("gate t", "t bufif1 1 2/4 z y a")
        self.check_refused("gate y", "2 UnknownGate")

    def test_a_line_of_gate_with_more_words_is_the_edit(self) -> None:
        self.assertEqual(self.ask("gate v buf 1 1 w y", "net w wire", "gate v buf 1 1 w y", "gate v"), "no 1 UnknownNet\nok 2\nok 3\nv buf 1 1 w y\nok 3\n")
        self.assertEqual(self.ask("gate g nand"), "no 16 BadCommand\n")

    def test_what_drives_and_reads_a_net(self) -> None:
        self.check("drivers y", "g")
        self.check("drivers a")
        self.check("readers a", "g", "t")
        self.check("readers b", "g", "u")
        self.check("readers z")
        for line in ("drivers g", "readers g"):
            self.check_refused(line, "1 UnknownNet")
        self.assertEqual(self.ask("wire u z a a", "drivers z", "readers a"), "ok 2\nt\nu\nok 2\ng\nt\nu\nok 2\n")

    def test_the_stimulus_of_an_input(self) -> None:
        self.check("points a", "0 1", "20 0")
        self.check("points b", "0 1", "10 0", "30 1")
        self.assertEqual(self.ask("unstim b 0", "points b", "input c", "points c"), "ok 2\n10 0\n30 1\nok 2\nok 3\nok 3\n")
        # A point behind the horizon is there.
        self.assertEqual(self.ask("stim a 50 z", "points a"), "ok 2\n0 1\n20 0\n50 z\nok 2\n")
        self.check_refused("points y", "9 NotInput")
        self.check_refused("points g", "1 UnknownNet")


class Windows(Gatetool):
    def test_a_part_of_a_wave(self) -> None:
        # y is x until the nand of two ones falls at 3, and rises 2 after b fell at 10.
        self.check("window y 0 40", "0 x", "3 0", "12 1")
        self.check("window y 2 3", "2 x", "3 0")
        self.check("window y 3 11", "3 0")
        self.check("window y 3 12", "3 0", "12 1")
        self.check("window y 40 40", "40 1")
        self.check("window b 5 30", "5 1", "10 0", "30 1")

    def test_a_part_of_a_wave_in_parts(self) -> None:
        # A part ends with its last moment: y is 0 from 3 and 1 from 12.
        self.check("window y 0 40 1", "3 x 1 more")
        self.check("window y 0 40 4", "3 x 0 one", "12 0 1 one")
        self.check("window y 0 24 2", "3 x 1 more")
        self.check("window y 0 23 2", "3 x 0 one", "12 0 1 one")
        self.check("window y 3 12 65536", "12 0 1 one")
        self.check("window y 12 40 3")
        self.check("window y 3 3 7")

    def test_moments_that_it_has_not(self) -> None:
        self.check_refused("window y 0 41", "11 TimeTooLarge")
        self.check_refused("window y 12 11", "11 TimeTooLarge")
        self.check_refused("window g 12 11", "1 UnknownNet")
        self.check_refused("window y 0 41 2", "11 TimeTooLarge")
        self.check_refused("window y 12 11 2", "11 TimeTooLarge")
        self.check_refused("window ' 0 0 1", "1 UnknownNet")


class Lines(Gatetool):
    def test_words_that_are_not_of_the_form(self) -> None:
        for line in ("nets y", "gates y", "inputs 1", "gate", "drivers", "readers a b", "points", "points a 0", "window y 0", "window y 0 x", "window y 0 1 2 3", "window y 0 1 0", "window y 0 1 65537", "window y 0 1 x", "at nets", "at k", "at k hold k", "Nets", "why", "why y", "reach y", "diff", "diff k k", "at k diff"):
            self.assertEqual(self.ask(line), "no 16 BadCommand\n", line)
        self.assertEqual(self.ask("at k nets"), "no 18 UnknownHold\n")

    def test_gatebench_knows_none_of_them(self) -> None:
        lines = ["nets", "inputs", "gates", "gate g", "drivers y", "readers y", "points a", "window y 0 1", "window y 0 1 1"]
        commands = "hold k\n" + "".join(f"{line}\nat k {line}\n" for line in lines)
        self.program = self.gatebench
        self.assertEqual(self.run_with(["m.v"], commands), Ended(0, "ok 0\n" + "no 16 BadCommand\n" * (2 * len(lines)), ""))

    def test_each_line_of_gatebench_is_answered_alike(self) -> None:
        commands = "\n".join(self.begun) + "\nvalue y 3\nwave z\nvcd\nhold k\nat k seek y 0 1\ndelay g 1 1\nwave y\nfree j\nwibble\nquit\n"
        mine = self.run_with(["m.v", "--horizon=40"], commands)
        self.program = self.gatebench
        self.assertEqual(mine, self.run_with(["m.v", "--horizon=40"], commands))


class RefusedTexts(Gatetool):
    """The second line about a refused text: its word, the word's column and what else the fault names, counted by hand."""

    def check_said(self, text: bytes, line: str, second: str = "", *words: str) -> None:
        """The text is refused with this line, and with the second one by gatetool alone."""
        self.write("refused.v", text)
        mine = self.run_with(["refused.v", *words])
        self.assertEqual(mine, Ended(1, "", f"{line}\n" + (f"  {second}\n" if second else "")), text[:80])
        name, self.program = self.program, self.gatebench
        theirs = self.run_with(["refused.v", *words])
        self.program = name
        self.assertEqual(theirs, Ended(1, "", f"{line}\n"), text[:80])

    def test_words_that_no_text_may_have(self) -> None:
        self.check_said(b"module m(a);\n  wire \x80;", "line 2: 1 Text", "byte 128, column 8")
        self.check_said(b"\x00", "line 1: 1 Text", "byte 0, column 1")
        self.check_said(b"module m(input a, output y);\n  assign y = a;\nendmodule\n", "line 2: 3 Unsupported", "word assign, column 3")
        self.check_said(b'module m;\n\tinitial $display("m', "line 2: 3 Unsupported", "word initial, column 2")
        self.check_said(b'module m;\nwire "w";', "line 2: 3 Unsupported", 'word ", column 6')
        self.check_said(b"`define X 1\n", "line 1: 3 Unsupported", "word `, column 1")
        units = b"`timescale 1ns/1ps\nmodule m;\nendmodule\n  `timescale 10 ns\n / 1 ns\n"
        self.check_said(units, "line 4: 3 Unsupported", "word `timescale, column 3")

    def test_words_that_do_not_continue_the_text(self) -> None:
        self.check_said(b"module m;\nendmodule m", "line 2: 2 Syntax", "word m, column 11")
        self.check_said(b"module m;\r\n wire \\w[0]~ \\w[1]~ ;\r\n", "line 2: 2 Syntax", "word \\w[1]~, column 14")
        self.check_said(b"module m;\n  wire \\ ;", "line 2: 2 Syntax", "word \\, column 8")
        self.check_said(b"module m; // all\n  /* endmodule *", "line 2: 2 Syntax", "word /*, column 3")
        self.check_said(b"(* full\nmodule m; endmodule", "line 1: 2 Syntax", "word (*, column 1")

    def test_the_text_ends(self) -> None:
        self.check_said(b"module", "line 1: 2 Syntax", "the text ends")
        self.check_said(b"module m;\n  wire w; // w\n", "line 3: 2 Syntax", "the text ends")

    def test_names(self) -> None:
        self.check_said(b"module m;\n  wire \\a.b ;\nendmodule\n", "line 2: 11 BadName", "word \\a.b, column 8")
        long = b"n" * 1_025
        self.check_said(b"module " + long + b";", "line 1: 11 BadName", f"word {long.decode()}, column 8")
        twice = b"module m(input a, output y);\n  not #1 g(y, a), g(y, a);\nendmodule\n"
        self.check_said(twice, "line 2: 11 DuplicateName", "word g, column 19")

    def test_gates(self) -> None:
        def gate(words: bytes) -> bytes:
            return b"module m(input [1:0] a, output y);\n  " + words + b"\nendmodule\n"

        self.check_said(gate(b"not (y, a[0]);"), "line 2: 11 ZeroDelay", "word not, column 3")
        self.check_said(gate(b"not #0 (y, a[0]);"), "line 2: 11 ZeroDelay", "word 0, column 8")
        self.check_said(gate(b"not #(1,1000001) (y, a[0]);"), "line 2: 11 DelayTooLarge", "word 1000001, column 11")
        self.check_said(gate(b"not #1 (y);"), "line 2: 11 WrongArity", "word ), column 12")
        self.check_said(gate(b"not #1 (1'b0, a[0]);"), "line 2: 9 PortKind", "word ), column 21")
        self.check_said(gate(b"not #1 (y, a);"), "line 2: 8 WidthMismatch", "word a, column 14")
        self.check_said(gate(b"not #1 (y, a[2]);"), "line 2: 8 WidthMismatch", "word 2, column 16")
        self.check_said(gate(b"wire [65536:0] w;"), "line 2: 11 TooMany", "word 65536, column 9")
        self.check_said(gate(b"not (y, a);"), "line 2: 8 WidthMismatch", "word a, column 11", "--delay", "1")

    def test_instances(self) -> None:
        inner = b"module h(input a, b, output [1:0] c); endmodule\nmodule m(input i, output o);\n"
        for words, line, second in (
            (b"\tg u(i);", "4 UnknownModule", "word u, column 4, module g"),
            (b"h \\u~1 (i, i, , i);", "10 PortCount", "word \\u~1, column 3"),
            (b"h u(.a(i), .d(i), .e(i));", "10 PortCount", "word u, column 3, port d"),
            (b"h u(.a(i), .b(i), .b(i), .a(i));", "10 PortCount", "word u, column 3, port b"),
            (b"h u(i, i, o);", "8 WidthMismatch", "word u, column 3, port c"),
            (b"h u(.c(o), .a(i));", "8 WidthMismatch", "word u, column 3, port c"),
        ):
            self.check_said(inner + words + b"\nendmodule\n", f"line 3: {line}", second)
        outer = b"module h(input a, output b); endmodule\nmodule m(input i);\n  h t(i, ), u(i, 1'b0);\nendmodule\n"
        self.check_said(outer, "line 3: 9 PortKind", "word u, column 13, port b")

    def test_modules_together(self) -> None:
        ring = b"module t(input i); a u(i); endmodule\n module a(input i); b u(i); endmodule\nmodule b(input i); a u(i); endmodule\n"
        self.check_said(ring, "line 2: 5 Recursive", "word module, column 2, module a")
        self.check_said(b"module a; endmodule\n  module b; endmodule\nmodule c; endmodule\n", "line 2: 7 ManyTops", "word module, column 3, module b")
        self.check_said(b" // nothing\n", "line 1: 6 NoTop")
        self.check_said(b" " * (MAX_TEXT + 1), "line 1: 1 Text")

    def test_designs(self) -> None:
        driven = b"\n  module m(input a, output y);\n  not #1 g(a, y), h(a, y);\nendmodule\n"
        self.check_said(driven, "line 2: 11 DrivenInput", "word module, column 3, net a, gate g")
        below = b"module s(output p); buf #1 (p, 1'b1); endmodule\nmodule m(input [1:0] a, b);\n  not #1 (y, b[0]); s u(.p(a[1]));\nendmodule\n"
        self.check_said(below, "line 2: 11 DrivenInput", "word module, column 1, net a[1], gate u.$1")
        many = b"module m;" + b"wire [65535:0] " + b", ".join(b"w%d" % it for it in range(17)) + b"; endmodule"
        self.check_said(many, "line 1: 11 TooMany", "word module, column 1")

    def test_a_text_without_a_fault_has_no_line(self) -> None:
        self.assertEqual(self.run_with(["m.v"], "quit\n"), Ended(0, "ok 0\n", ""))


class Names(Gatetool):
    def test_the_program_says_its_own_name(self) -> None:
        self.assertTrue(self.run_with(["--version"]).printed.startswith("gatetool "))
        mine = self.help_text()
        self.program = self.gatebench
        theirs = self.help_text()
        self.assertEqual(mine, theirs.replace("gatebench", "gatetool"))
        self.assertEqual(mine.count("gatetool"), 2)

    def test_only_this_name_is_that_of_gatetool(self) -> None:
        for name, reply in (("gatetool2", "no 16 BadCommand\n"), ("mygatetool", "no 16 BadCommand\n"), ("Gatetool", "no 16 BadCommand\n")):
            self.program = os.path.join(self.folder, name)
            os.symlink(os.path.abspath(self.gatebench), self.program)
            self.assertEqual(self.run_with(["m.v"], "inputs\n").printed, reply)


if __name__ == "__main__":
    unittest.main()
