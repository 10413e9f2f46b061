"""Ranges of declarations, token by token, and two declarations of one name, whose ranges are equal."""
import unittest

from .reading import Rows, WithTexts

WORDS: Rows = [
    # Where no range can stand.
    ("before a module's name", "module\n[1:0] m;", "line 2: 2 Syntax"),
    ("behind a module's name", "module m\n[1:0];", "line 2: 2 Syntax"),
    ("in place of an item", "module m;\n[1:0] a;", "line 2: 2 Syntax"),
    ("in place of a header's first name", "module m(\n[1:0] a);", "line 2: 2 Syntax"),
    ("behind a name of a header", "module m(a\n[1:0]);", "line 2: 2 Syntax"),
    ("behind a comma of a header", "module m(a,\n[1:0] b);", "line 2: 2 Syntax"),
    ("before a bare name", "module m(input a,\n[1:0] b);", "line 2: 2 Syntax"),
    ("behind the name of a direction in a header", "module m(input a\n[1:0]);", "line 2: 2 Syntax"),
    ("before a net kind in a header", "module m(input [1:0]\nwire a);", "line 2: 2 Syntax"),
    ("before a net kind", "module m(a); input [1:0]\nwire a;", "line 2: 2 Syntax"),
    ("behind another range", "module m; wire [1:0]\n[1:0] a;", "line 2: 2 Syntax"),
    ("behind a comma of an item", "module m; wire a,\n[1:0] b;", "line 2: 2 Syntax"),
    ("behind a delay", "module m; not #1\n[1:0] g(y,a);", "line 2: 2 Syntax"),
    ("behind a gate's name", "module m; not #1 g\n[1:0] (y,a);", "line 2: 2 Syntax"),
    ("in place of a delay", "module m; not #\n[1:0] g(y,a);", "line 2: 2 Syntax"),
    ("before the name of an instance", "module m; h\n[1:0] u();", "line 2: 2 Syntax"),
    ("behind the name of an instance", "module m; h u\n[1:0] ();", "line 2: 2 Syntax"),
    # Between the words of a range.
    ("no left bound", "module m; wire [\n:0] a;", "line 2: 2 Syntax"),
    ("no bound", "module m; wire [\n] a;", "line 2: 2 Syntax"),
    ("a name as the left bound", "module m; wire [\nn:0] a;", "line 2: 2 Syntax"),
    ("a constant as the left bound", "module m; wire [\n1'b1:0] a;", "line 2: 2 Syntax"),
    ("a sign before the left bound", "module m; wire [\n-1:0] a;", "line 2: 3 Unsupported"),
    ("one number alone", "module m; wire [1\n] a;", "line 2: 2 Syntax"),
    ("no colon", "module m; wire [1\n65536:0] a;", "line 2: 2 Syntax"),
    ("a sign in place of the colon", "module m; wire [1\n-1:0] a;", "line 2: 3 Unsupported"),
    ("no right bound", "module m; wire [1:\n] a;", "line 2: 2 Syntax"),
    ("a second colon in place of the right bound", "module m; wire [1:\n:0] a;", "line 2: 2 Syntax"),
    ("a word of Verilog as the right bound", "module m; wire [1:\nalways] a;", "line 2: 3 Unsupported"),
    ("no closing bracket", "module m; wire [1:0\na;", "line 2: 2 Syntax"),
    ("a second colon", "module m; wire [1:0\n:0] a;", "line 2: 2 Syntax"),
    ("a sign behind the bounds", "module m; wire [1:0\n+1] a;", "line 2: 3 Unsupported"),
    ("no name", "module m; wire [1:0]\n;", "line 2: 2 Syntax"),
    ("a word of Verilog in place of the name", "module m; wire [1:0]\nalways;", "line 2: 3 Unsupported"),
    ("no name in a header", "module m(input [1:0]\n);", "line 2: 2 Syntax"),
    ("no colon in a header", "module m(input [1\n0] a);", "line 2: 2 Syntax"),
    ("a comma in place of the name", "module m(a); output [1:0]\n, a;", "line 2: 2 Syntax"),
    # The text ends, or a byte stands there that no text may hold.
    ("the text ends behind the bracket", "module m; wire [\n", "line 2: 2 Syntax"),
    ("a comment that does not end, behind the colon", "module m; wire [1:\n/*", "line 2: 2 Syntax"),
    ("a byte that no text may hold, behind the left bound", "module m; wire [1\n\x7f", "line 2: 1 Text"),
    ("a byte that no text may hold, behind the right bound", "module m; wire [1:0\n\x7f", "line 2: 1 Text"),
    ("the text ends behind an item", "module m; wire [1:0] a;\n", "line 2: 2 Syntax"),
    # A name behind a range that no header has, and one that no design may have.
    ("a direction without a header", "module m; input [1:0]\na;", "line 2: 2 Syntax"),
    ("a direction of what the header has not", "module m(a); input [1:0]\nb;", "line 2: 2 Syntax"),
    ("a bad name", "module m; wire [1:0]\n\\a.b ;", "line 2: 11 BadName"),
    # A list of bounds is no delay.
    ("two bounds as a delay", "module m; not #(1\n:2) g(y,a);", "line 2: 2 Syntax"),
]

TWICE: Rows = [
    # A direction and a net declaration of one name, with two ranges.
    ("the bounds the other way round", "module m(a); input [1:0] a; wire [0:1]\na;", "line 2: 8 WidthMismatch"),
    ("the bounds the other way round, in a direction", "module m(a); wire [1:0] a; input [0:1]\na;", "line 2: 8 WidthMismatch"),
    ("a bit more", "module m(a); input [1:0] a; wire [2:0]\na;", "line 2: 8 WidthMismatch"),
    ("a bit less", "module m(a); input [1:0] a; wire [1:1]\na;", "line 2: 8 WidthMismatch"),
    ("as many bits elsewhere", "module m(a); input [1:0] a; wire [2:1]\na;", "line 2: 8 WidthMismatch"),
    ("a vector and then a scalar", "module m(a); input [1:0] a; wire\na;", "line 2: 8 WidthMismatch"),
    ("a scalar and then a vector", "module m(a); input a; wire [1:0] b,\na;", "line 2: 8 WidthMismatch"),
    ("a vector of one bit and then a scalar", "module m(a); input [0:0] a; wire\na;", "line 2: 8 WidthMismatch"),
    ("a scalar and then a vector of one bit", "module m(a); wire a; output [0:0]\na;", "line 2: 8 WidthMismatch"),
    ("the bounds the other way round, behind a header", "module m(input [1:0] a); wire [0:1]\na;", "line 2: 8 WidthMismatch"),
    ("a vector of a header and then a scalar", "module m(input [1:0] a, b); wire a\n;", "line 1: 8 WidthMismatch"),
    ("a scalar of a header and then a vector of one bit", "module m(input a); wire [0:0]\na;", "line 2: 8 WidthMismatch"),
    # A second declaration of the same sort is one too many, with whatever range.
    ("two directions of two ranges", "module m(a); input [1:0] a; output [2:0]\na;", "line 2: 11 DuplicateName"),
    ("two directions of one range", "module m(a); input [1:0] a; input [1:0]\na;", "line 2: 11 DuplicateName"),
    ("two net declarations of two ranges", "module m; wire [1:0] a; wand [2:0]\na;", "line 2: 11 DuplicateName"),
    ("two net declarations, a vector and then a scalar", "module m; wire [1:0] a; wire\na;", "line 2: 11 DuplicateName"),
    ("two net declarations in one item", "module m; wire [1:0] a,\na;", "line 2: 11 DuplicateName"),
    (
        "a net declaration, and a direction with a net kind",
        "module m(a); wire [1:0] a; input wire [2:0]\na;",
        "line 2: 11 DuplicateName",
    ),
    (
        "a net kind in the header, and a net declaration",
        "module m(input wire [1:0] a); wire [2:0]\na;",
        "line 2: 11 DuplicateName",
    ),
    ("a use and then a vector", "module m; not #1 g(a,b); wire [1:0]\na;", "line 2: 11 DuplicateName"),
    ("a port twice in a header of directions", "module m(input [1:0] a, output [2:0]\na);", "line 2: 11 DuplicateName"),
    # A bare name in a header shares what was written.
    ("a bare name has the net kind before it", "module m(input wire [1:0] a, b); wire [1:0]\nb;", "line 2: 11 DuplicateName"),
    ("a bare name has the range before it", "module m(input [1:0] a, b); wire [1:0] a; wire\nb;", "line 2: 8 WidthMismatch"),
    # No direction is wanted of what no header has, whatever the range.
    ("a direction that no header asks for", "module m; wire [1:0] a; input [0:1]\na;", "line 2: 2 Syntax"),
    ("a port with a net declaration alone", "module m(a); wire [1:0] a;\nendmodule", "line 2: 2 Syntax"),
    # What is wrong with a name comes first.
    ("a bad name before another range", "module m; wire [1:0] a; wire [0:1]\n\\a'b ;", "line 2: 11 BadName"),
    # A bit's name was looked for at the first declaration, not at the second.
    ("another range before the name of a bit", "module m(a); wire \\a[1] ; wire a; input [1:0]\na;", "line 2: 8 WidthMismatch"),
]


class Ranges(WithTexts):
    def test_words_of_ranges(self) -> None:
        self.check_rows(WORDS)

    def test_two_declarations_of_one_name(self) -> None:
        self.check_rows(TWICE)


if __name__ == "__main__":
    unittest.main()
