"""Which word of a refused text is at fault: the program refuses each text here, and the word is looked for in it."""
import os
import sys
import unittest
from importlib import import_module
from typing import NamedTuple, Optional

from gatebench import DesignRefused, ProgramEnded, Session
from gatebench.fault_word import FaultWord, fault_word
from gatebench.said_word import said_word
from gatebench.session import refused_design

from .support import ROOT


class Case(NamedTuple):
    """What stands behind `module m(input [3:0] a, input b, output y);` on lines of its own, the name of its fault, and the word that
    is found with its line and column."""

    text: str
    name: str
    word: Optional[FaultWord]
    delay: Optional[int] = None


HEAD = "module m(input [3:0] a, input b, output y);\n"


def at(word: str, line: int, column: int) -> FaultWord:
    return FaultWord(word, line, column)


CASES = [
    Case("wire \N{LATIN SMALL LETTER E WITH ACUTE};", "Text", at("\N{LATIN SMALL LETTER E WITH ACUTE}", 2, 6)),
    Case("  assign y = b;", "Unsupported", at("assign", 2, 3)),
    Case("wire assigned; /* assign */ assign y = b;", "Unsupported", at("assign", 2, 29)),
    Case("s u({a[1], b}, y);", "Unsupported", at("{", 2, 5)),
    Case("`celldefine", "Unsupported", at("`celldefine", 2, 1)),
    Case("/* one\ntwo */ reg q;", "Unsupported", at("reg", 3, 8)),
    Case("buf (strong0, strong1) #1 (y, b);", "Unsupported", at("strong0", 2, 6), 1),
    Case("and #1 (y, b, 1'h1);", "Syntax", at("1'h1", 2, 15)),
    Case("buf #(1:2:3) (y, b);", "Syntax", at(":", 2, 8)),
    Case("and #(1,2,3) (y, a[0], b);", "Syntax", at(",", 2, 10)),
    Case("buf #1 (y, b)\nwire n;", "Syntax", at("wire", 3, 1)),
    Case("input c;", "Syntax", at("input", 2, 1)),
    Case("wire n; /* open", "Syntax", at("/*", 2, 9)),
    Case("wire \\u1.n ;", "BadName", at("\\u1.n", 2, 6)),
    Case("buf (y, b);", "ZeroDelay", at("buf", 2, 1)),
    Case("buf #1 (n, b); buf #(1,0) (y, b);", "ZeroDelay", at("0", 2, 24)),
    Case("and #0 (y, a[0], b);", "ZeroDelay", at("0", 2, 6), 1),
    Case("buf #1000001 (y, b);", "DelayTooLarge", at("1000001", 2, 6)),
    Case("wire [65536:0] n;", "TooMany", at("65536", 2, 7)),
    Case("bufif1 #1 g(y, b);", "WrongArity", at("g", 2, 11)),
    Case("not #1 (1'b0, b);", "PortKind", at("1'b0", 2, 9)),
    Case("wire n;\nwire n;", "DuplicateName", at("n", 3, 6)),
    Case("not #1 (y, a);", "WidthMismatch", at("a", 2, 12)),
    Case("not #1 (y, a[4]);", "WidthMismatch", at("4", 2, 14)),
    Case("NAND2 u(.A(b), .Y(y));", "UnknownModule", at("NAND2", 2, 1)),
    Case("s u(.Z(y));\nendmodule\nmodule s(output Y);", "PortCount", at("Z", 2, 6)),
    Case("s u(y, b);\nendmodule\nmodule s(output Y);", "PortCount", at("b", 2, 8)),
    Case("m u();", "Recursive", at("m", 1, 8)),
    Case("endmodule\nmodule n;", "ManyTops", at("n", 3, 8)),
    Case("buf #1 (y, b),\n  (b, y);", "DrivenInput", at("b", 3, 4)),
    # What may be more than one word, or stands in none.
    Case("wire n, b, a;", "WidthMismatch", None),
    Case("buf #1 (n, b); wire n; wire y; wire b;", "DuplicateName", None),
    Case("s u(1'b0);\nendmodule\nmodule s(output Y);", "PortKind", None),
]


class Words(unittest.TestCase):
    def test_the_word_and_where_it_stands(self) -> None:
        for case in CASES:
            with self.subTest(case.text):
                text = f"{HEAD}{case.text}\nendmodule\n"
                with self.assertRaises(DesignRefused) as caught:
                    Session(text=text, delay=case.delay)
                found = caught.exception
                self.assertEqual(found.name, case.name)
                self.assertEqual((fault_word(text, found.line, found.name, case.delay) or [None])[:3], case.word[:3] if case.word else [None])
                # Of the others a newer program says the word.
                self.assertTrue(case.word is None or case.word[:3] == (found.word, found.word_line, found.column))

    def test_the_word_that_the_program_says_where_the_text_leaves_several(self) -> None:
        text = f"{HEAD}/* \N{LATIN SMALL LETTER E WITH ACUTE} */ wire n, b, a;\nendmodule\n"
        self.assertIsNone(fault_word(text, 2, "WidthMismatch"))
        for errors, wanted in (
            ("line 2: 8 WidthMismatch\n  word b, column 18\n", FaultWord("b", 2, 17)),
            ("line 2: 8 WidthMismatch\n  word \\a,b, column 1, port p\n", FaultWord("\\a,b", 2, 1)),
            ("line 2: 8 WidthMismatch\n  the text ends\n", None),
            ("line 2: 8 WidthMismatch\n", None),
        ):
            self.assertEqual(said_word(errors, text, 2), wanted)
        ended = ProgramEnded(1, "line 2: 8 WidthMismatch\n  word b, column 18\n")
        refused = refused_design("m.v", ended, text, None)
        assert refused is not None
        self.assertEqual((refused.line, refused.name, refused.word, refused.column), (2, "WidthMismatch", "b", 17))
        self.assertTrue(str(refused).endswith(" " * 16 + "^"), str(refused))

    def test_the_names_that_may_be_meant(self) -> None:
        cells = "\nendmodule\nmodule NAND2(input A, B, output Y); nand #1 g(Y, A, B);"
        for text, near in (
            ("NADN2 u(.A(b), .B(b), .Y(y));", ("NAND2",)),
            ("NAND2 u(.AA(b), .B(b), .Y(y));", ("A",)),
            ("NAND2 u(.A(b), .B(b), .Q(y));", ("A", "B", "Y")),
            ("NAND2 u(b, b, y, y);", ()),
            ("assign y = b;", ()),
        ):
            with self.assertRaises(DesignRefused) as caught:
                Session(text=f"{HEAD}{text}{cells}\nendmodule\n")
            self.assertEqual(caught.exception.near, near, text)
            self.assertEqual("; there is " in str(caught.exception), bool(near), text)

    def test_a_text_without_a_module_has_no_word(self) -> None:
        with self.assertRaises(DesignRefused) as caught:
            Session(text="\n")
        self.assertIsNone(caught.exception.word)

    def test_a_line_that_has_no_such_fault(self) -> None:
        for line, name in ((1, "Unsupported"), (2, "ZeroDelay"), (9, "Syntax"), (1, "Wibble")):
            self.assertIsNone(fault_word(HEAD + "endmodule\n", line, name), (line, name))

    def test_the_line_is_marked_below_the_word(self) -> None:
        with self.assertRaises(DesignRefused) as caught:
            Session(text=f"{HEAD}\twire n; assign y = n;\nendmodule\n")
        _, line, marks = str(caught.exception).split("\n")
        self.assertEqual((line, marks), ("  wire n; assign y = n;", "          ^^^^^^"))

    def test_of_a_long_line_a_part_is_shown(self) -> None:
        names = ", ".join(f"n{number}" for number in range(100))
        with self.assertRaises(DesignRefused) as caught:
            Session(text=f"{HEAD}wire {names}, reg, {names};\nendmodule\n")
        _, line, marks = str(caught.exception).split("\n")
        self.assertLess(len(line), 85)
        self.assertEqual(line[marks.index("^") : len(marks)], "reg")

    def test_no_mark_where_it_is_not_certain(self) -> None:
        refused = refused_design("m.v", ProgramEnded(1, "line 2: 8 WidthMismatch\n"), f"{HEAD}  wire n, b, a;\nendmodule\n", None)
        self.assertEqual(str(refused).split("\n")[1:], ["  wire n, b, a;"])


# The faults of which docs/SPEC.md names the token at which they stand; of the others the word is one that is more to the point.
AT_THEIR_TOKEN = ("Text", "Unsupported", "Syntax", "BadName", "ZeroDelay", "DelayTooLarge", "TooMany", "DuplicateName", "WidthMismatch")


class Generated(unittest.TestCase):
    """Texts by chance, as tools/fuzz makes them, and the place at which its reading of all rules finds their fault."""

    def test_it_is_never_another_word_than_that_of_the_reading_of_all_rules(self) -> None:
        fuzz = os.path.join(ROOT, "tools", "fuzz")
        sys.path.insert(0, fuzz)
        self.addCleanup(sys.path.remove, fuzz)
        text_case = import_module("generate.cases").text_case
        found = 0
        for number in range(600):
            case = text_case("words", number)
            fault = case.found("reading")
            if not isinstance(fault, Exception) or getattr(fault, "name") not in AT_THEIR_TOKEN:
                continue
            # A byte is a character here, so that places are the same.
            text, place = case.text.decode("latin-1"), getattr(fault, "place")
            line = text.count("\n", 0, place) + 1
            word = fault_word(text, line, getattr(fault, "name"), case.option("--delay", None))
            if word:
                found += 1
                column = place - (text.rfind("\n", 0, place) + 1) + 1
                self.assertEqual((word.line, word.column), (line, column), number)
                self.assertTrue(text.startswith(word.word, place), number)
        self.assertGreater(found, 200)


if __name__ == "__main__":
    unittest.main()
