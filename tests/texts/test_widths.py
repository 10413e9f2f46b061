"""The widths of ports and of what is connected to them."""
import unittest

from .reading import Rows, WithTexts

WIDTHS: Rows = [
    # A port and what is connected to it have one width.
    (
        "two bits on two",
        "module h(input [1:0] p); endmodule module m; wire [1:0] a; h\nu(a); endmodule",
        "m: a[1]:wire a[0]:wire",
    ),
    (
        "two bits on two, by name",
        "module h(input [1:0] p); endmodule module m; wire [7:8] a; h\nu(.p(a)); endmodule",
        "m: a[7]:wire a[8]:wire",
    ),
    (
        "three bits on two",
        "module h(input [1:0] p); endmodule module m; wire [2:0] a; h\nu(a); endmodule",
        "line 2: 8 WidthMismatch",
    ),
    (
        "two bits on three, by name",
        "module h(output [2:0] p); endmodule module m; wire [1:0] a; h\nu(.p(a)); endmodule",
        "line 2: 8 WidthMismatch",
    ),
    (
        "65,535 bits on 65,536",
        "module h(input [65535:0] p); endmodule module m; wire [65535:1] a; h\nu(a); endmodule",
        "line 2: 8 WidthMismatch",
    ),
    (
        "an implicit net on 65,536 bits",
        "module h(input [65535:0] p); endmodule module m; h\nu(a); endmodule",
        "line 2: 8 WidthMismatch",
    ),
    ("an implicit net on two bits", "module h(input [1:0] p); endmodule module m; h\nu(a); endmodule", "line 2: 8 WidthMismatch"),
    (
        "two bits on a scalar",
        "module h(input p); endmodule module m; wire [1:0] a; h\nu(a); endmodule",
        "line 2: 8 WidthMismatch",
    ),
    (
        "a bit on two bits",
        "module h(input [1:0] p); endmodule module m; wire [1:0] a; h\nu(a[1]); endmodule",
        "line 2: 8 WidthMismatch",
    ),
    (
        "a constant on two bits",
        "module h(p); wire [1:0] p; input [1:0] p; endmodule module m; h\nu(1'b0); endmodule",
        "line 2: 8 WidthMismatch",
    ),
    # Scalars, bits, constants and vectors of one bit have the width 1.
    ("a scalar on a vector of one bit", "module h(input [0:0] p); endmodule module m; h\nu(a); endmodule", "m: a:wire"),
    (
        "a bit on a vector of one bit",
        "module h(input [9:9] p); endmodule module m; wire [1:0] a; h\nu(a[0]); endmodule",
        "m: a[1]:wire a[0]:wire",
    ),
    ("a constant on a vector of one bit", "module h(input [0:0] p); endmodule module m; h\nu(1'b0); endmodule", "m:"),
    (
        "a vector of one bit on another",
        "module h(input [0:0] p); endmodule module m; wire [7:7] a; h\nu(a); endmodule",
        "m: a[7]:wire",
    ),
    (
        "a vector of one bit on a scalar",
        "module h(input p); endmodule module m; wire [7:7] a; h\nu(a); endmodule",
        "m: a[7]:wire",
    ),
    (
        "two bits on two scalars",
        "module h(input p, output q); endmodule module m; wire [1:0] a; h\nu(a[1],a[0]); endmodule",
        "m: a[1]:wire a[0]:wire",
    ),
    (
        "two bits on the second scalar",
        "module h(input p, q); endmodule module m; wire [1:0] a; h\nu(a[1],a); endmodule",
        "line 2: 8 WidthMismatch",
    ),
    # What is left open has no width.
    (
        "an empty place for two bits",
        "module h(input [1:0] p, input q); endmodule module m; h\nu(,a); endmodule",
        "m: a:wire u.p[1]:wire u.p[0]:wire",
    ),
    (
        "an empty pair of parentheses for two bits",
        "module h(input [1:0] p, input q); endmodule module m; h\nu(.p(),.q(a)); endmodule",
        "m: a:wire u.p[1]:wire u.p[0]:wire",
    ),
    # A constant on an output port: of another width before, of one bit not.
    (
        "a constant on an output of two bits",
        "module h(output [1:0] q); endmodule module m; h\nu(1'b0); endmodule",
        "line 2: 8 WidthMismatch",
    ),
    (
        "a constant on an output of one bit",
        "module h(output [0:0] q); endmodule module m; h\nu(1'b0); endmodule",
        "line 2: 9 PortKind",
    ),
    (
        "a constant on an output of two bits, by name",
        "module h(output [1:0] q); endmodule module m; h\nu(.q(1'bz)); endmodule",
        "line 2: 8 WidthMismatch",
    ),
    # The first connection as written with a fault gives it.
    (
        "a constant on an output before another width",
        "module h(output q, input [1:0] p); endmodule module m; h\nu(1'b0,a); endmodule",
        "line 2: 9 PortKind",
    ),
    (
        "another width before a constant on an output",
        "module h(input [1:0] p, output q); endmodule module m; h\nu(a,1'b0); endmodule",
        "line 2: 8 WidthMismatch",
    ),
    (
        "a constant on an output before another width, by name",
        "module h(input [1:0] p, output q); endmodule module m; h\nu(.q(1'b0),.p(a)); endmodule",
        "line 2: 9 PortKind",
    ),
    (
        "another width before a constant on an output, by name",
        "module h(output q, input [1:0] p); endmodule module m; h\nu(.p(a),.q(1'b0)); endmodule",
        "line 2: 8 WidthMismatch",
    ),
    # The number of connections, and their names, come before their widths.
    ("a connection too many", "module h(input [1:0] p); endmodule module m; h\nu(a,b); endmodule", "line 2: 10 PortCount"),
    (
        "a name of no port",
        "module h(input [1:0] p, output q); endmodule module m; h\nu(.p(a),.q(1'b0),.r()); endmodule",
        "line 2: 10 PortCount",
    ),
    ("a port named twice", "module h(input [1:0] p); endmodule module m; h\nu(.p(a),.p()); endmodule", "line 2: 10 PortCount"),
    # Of instances the first one with a fault, where the design has it not too.
    (
        "another width before an instance without its module",
        "module h(input [1:0] p); endmodule module m; h\nu(a); k\nv(); endmodule",
        "line 2: 8 WidthMismatch",
    ),
    (
        "an instance without its module before another width",
        "module h(input [1:0] p); endmodule module m; k\nv(); h\nu(a); endmodule",
        "line 2: 4 UnknownModule",
    ),
    (
        "in a second top",
        "module h(input [1:0] p); endmodule module m; endmodule module n; h\nu(a); endmodule",
        "line 2: 8 WidthMismatch",
    ),
    # A token comes before it, and modules together behind it.
    (
        "a token before another width",
        "module h(input [1:0] p); endmodule module m; h u(a); wire [1:0] b; not #1 g(c,\nb);",
        "line 2: 8 WidthMismatch",
    ),
    ("another width before a module in itself", "module m(input [1:0] p); m\nu(p[0]); endmodule", "line 2: 8 WidthMismatch"),
    ("a module in itself alone", "module m(input [1:0] p); m\nu(p); endmodule", "line 1: 5 Recursive"),
]


class Widths(WithTexts):
    def test_widths_of_connections(self) -> None:
        self.check_rows(WIDTHS)


if __name__ == "__main__":
    unittest.main()
