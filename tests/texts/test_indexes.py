"""Bounds and indexes that are over their limit or out of range, and whole vectors where bits have to stand."""
import unittest

from .reading import Rows, WithTexts

INDEXES: Rows = [
    # A bound over 65,535, at its number.
    ("a left bound over the limit", "module m; wire [\n65536:0] a;", "line 2: 11 TooMany"),
    ("a right bound over the limit", "module m; wire [0:\n65536] a;", "line 2: 11 TooMany"),
    ("a right bound that is over each number", "module m; wire [0:\n99999999999] a;", "line 2: 11 TooMany"),
    ("a left bound of a direction, with a low line in it", "module m; input [\n65_536:0] a;", "line 2: 11 TooMany"),
    ("a right bound in a header", "module m(input [0:\n131072] a);", "line 2: 11 TooMany"),
    ("a bound before a word of Verilog", "module m; wire [\n65536 always", "line 2: 11 TooMany"),
    # An index over 65,535, on whatever net, before all else of the index.
    ("an index of a scalar", "module m; wire a; not #1 g(y,a[\n65536]);", "line 2: 11 TooMany"),
    ("an index of an unknown net", "module m; not #1 g(y,n[\n65536]);", "line 2: 11 TooMany"),
    ("an index of the widest vector", "module m; wire [65535:0] a; not #1 g(y,a[\n65536]);", "line 2: 11 TooMany"),
    ("an index that 16 bits would have in range", "module m; wire [7:0] a; not #1 g(y,a[\n65541]);", "line 2: 11 TooMany"),
    ("an index in a connection", "module m; h u(n[\n4294967296]);", "line 2: 11 TooMany"),
    ("an index in a connection by name", "module m; wire [7:0] a; h u(.p(a[\n65536]));", "line 2: 11 TooMany"),
    # An index on what is no vector.
    ("5 of a scalar", "module m; wire a; not #1 g(y,a[\n5]);", "line 2: 8 WidthMismatch"),
    ("0 of a scalar", "module m; wire a; not #1 g(y,a[\n0]);", "line 2: 8 WidthMismatch"),
    ("0 of a scalar in a header", "module m(input a); not #1 g(y,a[\n0]);", "line 2: 8 WidthMismatch"),
    ("0 of an unknown net", "module m; not #1 g(n[\n0],a);", "line 2: 8 WidthMismatch"),
    ("an unknown net in a connection", "module m; h u(n[\n65535]);", "line 2: 8 WidthMismatch"),
    ("an unknown net in a connection by name", "module m; h u(.p(n[\n0]));", "line 2: 8 WidthMismatch"),
    ("a port before its direction", "module m(v); not #1 g(y,v[\n0]); input [1:0] v;", "line 2: 8 WidthMismatch"),
    # An index out of the range.
    ("below a falling range", "module m; wire [3:1] a; not #1 g(y,a[\n0]);", "line 2: 8 WidthMismatch"),
    ("above a falling range", "module m; wire [3:1] a; not #1 g(y,a[\n4]);", "line 2: 8 WidthMismatch"),
    ("below a rising range", "module m; wire [1:3] a; not #1 g(y,a[\n0]);", "line 2: 8 WidthMismatch"),
    ("above a rising range, in a connection", "module m; wire [1:3] a; h u(a[3],a[\n4]);", "line 2: 8 WidthMismatch"),
    (
        "above a range of one bit, in a connection by name",
        "module m; wire [5:5] a; h u(.p(a[5]),.q(a[\n6]));",
        "line 2: 8 WidthMismatch",
    ),
    ("below a range of one bit, as an output", "module m; wire [5:5] a; not #1 g(a[\n4],y);", "line 2: 8 WidthMismatch"),
    # A bit is a terminal like another.
    ("one terminal, a bit", "module m; wire [1:0] a; and #1 g(a[0]\n);", "line 2: 11 WrongArity"),
    ("a constant and a bit", "module m; wire [1:0] a; not #1 g(1'b0,a[0]\n);", "line 2: 9 PortKind"),
    # Between the words of an index.
    ("an index without a name", "module m; not #1 g(y,\n[0]);", "line 2: 2 Syntax"),
    ("an index of a constant", "module m; not #1 g(y,1'b0\n[0]);", "line 2: 2 Syntax"),
    ("two indexes", "module m; wire [1:0] a; not #1 g(y,a[0]\n[0]);", "line 2: 2 Syntax"),
    ("no number", "module m; wire [1:0] a; not #1 g(y,a[\n]);", "line 2: 2 Syntax"),
    ("a name in the brackets", "module m; wire [1:0] a; not #1 g(y,a[\nb]);", "line 2: 2 Syntax"),
    ("a constant in the brackets", "module m; wire [1:0] a; not #1 g(y,a[\n1'b0]);", "line 2: 2 Syntax"),
    ("a sign in the brackets", "module m; wire [1:0] a; not #1 g(y,a[\n+0]);", "line 2: 3 Unsupported"),
    ("a range in a connection", "module m; wire [1:0] a; h u(a[1\n:0]);", "line 2: 2 Syntax"),
    ("no closing bracket in a connection", "module m; wire [1:0] a; h u(a[1\n);", "line 2: 2 Syntax"),
    ("two indexes in a connection", "module m; wire [1:0] a; h u(a[1]\n[1]);", "line 2: 2 Syntax"),
    ("no comma behind an index in a connection", "module m; wire [1:0] a; h u(a[1]\nb);", "line 2: 2 Syntax"),
    ("two nets at one port", "module m; wire [1:0] a; h u(.p(a[1]\n,b));", "line 2: 2 Syntax"),
    ("an index of a port", "module m; h u(.p\n[0](a));", "line 2: 2 Syntax"),
    ("an index without a net at a port", "module m; h u(.p(\n[0]));", "line 2: 2 Syntax"),
    ("the text ends in an index", "module m; wire [1:0] a; h u(a[\n", "line 2: 2 Syntax"),
    ("a byte that no text may hold, in an index", "module m; wire [1:0] a; not #1 g(y,a[\n\x7f", "line 2: 1 Text"),
    (
        "a byte that no text may hold, before the closing bracket",
        "module m; wire [1:0] a; not #1 g(y,a[0\n\x7f",
        "line 2: 1 Text",
    ),
    ("a bad name before an index", "module m; wire [1:0] a; not #1 g(y,\n\\a.b [0]);", "line 2: 11 BadName"),
]

WHOLE: Rows = [
    # A vector without an index is no terminal of a gate, whatever follows.
    ("an input of a gate", "module m(y);\noutput y;\nwire [3:0] v;\nnot #1 g(y,v);\nendmodule", "line 4: 8 WidthMismatch"),
    ("an output of a gate", "module m; wire [3:0] v; not #1 g(\nv,a);", "line 2: 8 WidthMismatch"),
    ("a vector of one bit", "module m; wire [0:0] v; not #1 g(y,\nv);", "line 2: 8 WidthMismatch"),
    ("the last of three terminals", "module m(input [1:0] v); and #1 g(y,v[0],\nv\n);", "line 2: 8 WidthMismatch"),
    ("before a byte that no text may hold", "module m; wire [3:0] v; not #1 g(y,\nv\n\x7f", "line 2: 8 WidthMismatch"),
    ("before a byte that is no mark", "module m; wire [3:0] v; not #1 g(y,\nv\n@", "line 2: 8 WidthMismatch"),
    ("before a word of Verilog", "module m; wire [3:0] v; not #1 g(y,\nv\nalways", "line 2: 8 WidthMismatch"),
    ("before a comment that does not end", "module m; wire [3:0] v; not #1 g(y,\nv\n/*", "line 2: 8 WidthMismatch"),
    ("before the end of the text", "module m; wire [3:0] v; not #1 g(y,\nv\n", "line 2: 8 WidthMismatch"),
    (
        "before an escaped name that looks like an index",
        "module m; wire [3:0] v; not #1 g(y,\nv\n\\[0] ",
        "line 2: 8 WidthMismatch",
    ),
    # The fault comes before what is wrong with the gate.
    ("the only terminal", "module m; wire [3:0] v; not #1 g(\nv\n);", "line 2: 8 WidthMismatch"),
    # With the bracket of an index it is another matter.
    ("an index out of the range", "module m; wire [3:0] v; not #1 g(y,v\n[\n4]);", "line 3: 8 WidthMismatch"),
    ("a bracket that nothing follows", "module m; wire [3:0] v; not #1 g(y,v\n[\n", "line 3: 2 Syntax"),
    # In a connection a vector may stand without an index.
    ("in a connection, before a byte that no text may hold", "module m; wire [3:0] v; h u(v\n\x7f", "line 2: 1 Text"),
    ("in a connection by name, before a byte that is no mark", "module m; wire [3:0] v; h u(.p(v\n@", "line 2: 3 Unsupported"),
    # A use before the declaration makes a scalar.
    ("a terminal and then its declaration", "module m; not #1 g(y,v); wire [3:0]\nv;", "line 2: 11 DuplicateName"),
    ("a connection and then its direction", "module m(v); h u(v); input [3:0]\nv;", "line 2: 11 DuplicateName"),
]


class Indexes(WithTexts):
    def test_bounds_and_indexes(self) -> None:
        self.check_rows(INDEXES)

    def test_whole_vectors(self) -> None:
        self.check_rows(WHOLE)


if __name__ == "__main__":
    unittest.main()
