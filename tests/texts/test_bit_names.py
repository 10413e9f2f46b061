"""Names of bits that other nets of the module have."""
import unittest

from .reading import Rows, WithTexts

BITS: Rows = [
    # The name of a bit and that of a scalar, in either order.
    ("a vector and then a scalar", "module m; wire [1:0] a; wire\n\\a[0] ;", "line 2: 11 DuplicateName"),
    ("a scalar and then a vector", "module m; wire \\a[0] ; wire [1:0]\na;", "line 2: 11 DuplicateName"),
    ("a bit of a rising range", "module m; wire [0:1] a; wire\n\\a[1] ;", "line 2: 11 DuplicateName"),
    ("a bit within its range", "module m; wire [9:11] a; wire b,\n\\a[10] ;", "line 2: 11 DuplicateName"),
    ("a scalar and then the second vector of an item", "module m; wire \\a[10] ; wire [11:9] b,\na;", "line 2: 11 DuplicateName"),
    ("one of several scalars", "module m; wire \\a[7] , \\a[0] , \\a[3] ; wire [3:1]\na;", "line 2: 11 DuplicateName"),
    ("the greatest index", "module m; wire [65535:0] a; wire\n\\a[65535] ;", "line 2: 11 DuplicateName"),
    # Uses.
    ("a terminal", "module m; wire [1:0] a; not #1 g(y,\n\\a[1] );", "line 2: 11 DuplicateName"),
    (
        "a terminal whose index is over the limit",
        "module m; wire [1:0] a; not #1 g(y,\n\\a[1] [65536]);",
        "line 2: 11 DuplicateName",
    ),
    ("a connection", "module m; wire [1:0] a; h u(\n\\a[1] );", "line 2: 11 DuplicateName"),
    ("a connection by name", "module m; wire [1:0] a; h u(.p(\n\\a[1] ));", "line 2: 11 DuplicateName"),
    ("a terminal and then a vector", "module m; not #1 g(\\a[1] ,y); wire [1:0]\na;", "line 2: 11 DuplicateName"),
    ("a connection and then a vector", "module m; h u(\\a[1] ); wire [1:0]\na;", "line 2: 11 DuplicateName"),
    # A name in a header is looked at where it is declared.
    (
        "a port that is declared behind a vector",
        "module m(\\a[0] , a); input [1:0] a; input\n\\a[0] ;",
        "line 2: 11 DuplicateName",
    ),
    (
        "a vector that is declared behind a port",
        "module m(\\a[0] , a); input \\a[0] ; input [1:0]\na;",
        "line 2: 11 DuplicateName",
    ),
    ("a net declaration of a port", "module m(a, \\a[0] ); wire [1:0] a; wire\n\\a[0] ;", "line 2: 11 DuplicateName"),
    ("a port without a direction", "module m(a, \\a[0] ); input [1:0] a;\nendmodule", "line 2: 2 Syntax"),
    ("a use of a port", "module m(\\a[0] , a); wire [1:0] a; not #1 g(y,\n\\a[0] );", "line 2: 11 DuplicateName"),
    ("a scalar in a header of directions", "module m(input [1:0] a, input\n\\a[0] );", "line 2: 11 DuplicateName"),
    ("a vector in a header of directions", "module m(input \\a[0] , input [1:0]\na);", "line 2: 11 DuplicateName"),
    # A vector may have the name of a bit, and its own bits have longer ones.
    (
        "a bit of a vector with brackets in its name",
        "module m; wire [1:0] a, \\a[0] ; wire\n\\a[0][1] ;",
        "line 2: 11 DuplicateName",
    ),
]


class BitNames(WithTexts):
    def test_names_of_bits(self) -> None:
        self.check_rows(BITS)


if __name__ == "__main__":
    unittest.main()
