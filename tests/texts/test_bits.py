"""The nets that the bits of vectors are, in order, and ports that are vectors."""
import unittest

from .reading import Rows, WithTexts

BITS: Rows = [
    (
        "from the left bound to the right one, where the vector stands",
        "module m; wire [3:0] a; wire b; wand [0:1] c; wire [9:9] d; tri [65534:65535] e; endmodule",
        "m: a[3]:wire a[2]:wire a[1]:wire a[0]:wire b:wire c[0]:wand c[1]:wand d[9]:wire e[65534]:tri e[65535]:tri",
    ),
    (
        "ports in the order of the header",
        "module m(y,a); wire n; input [10:9] a; output wor [0:1] y; endmodule",
        "m: y[0]:wor y[1]:wor <a[10]:wire <a[9]:wire n:wire",
    ),
    (
        "a range that two names share, beside a name with brackets",
        "module m(input wand [1:0] a, b); wire \\a[2] ; endmodule",
        "m: <a[1]:wand <a[0]:wand <b[1]:wand <b[0]:wand a[2]:wire",
    ),
    (
        "a vector stands where its name appears",
        "module m(input [1:0] a); not #1 (x,a[0]); wire [0:1] n; not #2 g(n[0],a[1]), (n[1],x); endmodule",
        "m: <a[1]:wire <a[0]:wire x:wire n[0]:wire n[1]:wire / $1 not 1 1 x a[0] / g not 2 2 n[0] a[1] / $2 not 2 2 n[1] x",
    ),
    (
        "in each of two instances",
        "module h(input p); wire [1:0] n; not #1 g(n[1],p); endmodule module m(input a); h u(a), v(a); endmodule",
        "m: <a:wire u.n[1]:wire u.n[0]:wire v.n[1]:wire v.n[0]:wire / u.g not 1 1 u.n[1] a / v.g not 1 1 v.n[1] a",
    ),
    (
        "a whole vector is connected bit by bit from the left",
        "module h(input [0:3] p, output [3:0] q); buf #1 (q[0],p[0]), (q[1],p[1]), (q[2],p[2]), (q[3],p[3]); endmodule "
        "module m(input [3:0] a); wire [7:4] y; h u(a,y); endmodule",
        "m: <a[3]:wire <a[2]:wire <a[1]:wire <a[0]:wire y[7]:wire y[6]:wire y[5]:wire y[4]:wire / u.$1 buf 1 1 y[4] a[3]"
        " / u.$2 buf 1 1 y[5] a[2] / u.$3 buf 1 1 y[6] a[1] / u.$4 buf 1 1 y[7] a[0]",
    ),
    (
        "whole vectors through two levels",
        "module o(input [1:0] r); nor #1 g(s,r[1],r[0]); endmodule "
        "module n(input [0:1] p, output [0:0] q); o v(p); buf #1 (q[0],p[1]); endmodule "
        "module m(input [5:4] a, output y); n u(.q(y),.p(a)); endmodule",
        "m: <a[5]:wire <a[4]:wire y:wire u.v.s:wire / u.$1 buf 1 1 y a[4] / u.v.g nor 1 1 u.v.s a[5] a[4]",
    ),
    (
        "single bits, crossed, below a vector",
        "module h(input p, output q); not #1 g(q,p); endmodule "
        "module m(input [1:0] a); wire [1:0] y; h u(a[0],y[1]), v(a[1],y[0]); endmodule",
        "m: <a[1]:wire <a[0]:wire y[1]:wire y[0]:wire / u.g not 1 1 y[1] a[0] / v.g not 1 1 y[0] a[1]",
    ),
    (
        "one bit at two ports",
        "module o(input [2:2] r, s); nor #1 g(t,r[2],s[2]); endmodule "
        "module n(input [0:1] p); o v(p[1],p[1]); endmodule "
        "module m(input [1:0] a); n u(a); endmodule",
        "m: <a[1]:wire <a[0]:wire u.v.t:wire / u.v.g nor 1 1 u.v.t a[0] a[0]",
    ),
    (
        "vectors of one bit and a scalar",
        "module h(input p, output [4:4] q); buf #1 g(q[4],p); endmodule module m(input [3:3] a, output y); h u(a,y); endmodule",
        "m: <a[3]:wire y:wire / u.g buf 1 1 y a[3]",
    ),
    (
        "two bits as outputs of one gate",
        "module m; wire [1:0] a; buf #1 g(a[0],a[1],b); endmodule",
        "m: a[1]:wire a[0]:wire b:wire / g$1 buf 1 1 a[0] b / g$2 buf 1 1 a[1] b",
    ),
]

PORTS: Rows = [
    # Ports that are connected to nothing are vectors of the instance.
    (
        "not connected: vectors of the instance",
        "module h(input [1:0] p, output [0:1] q); not #1 g(q[0],p[0]); endmodule module m; h u(); endmodule",
        "m: u.p[1]:wire u.p[0]:wire u.q[0]:wire u.q[1]:wire / u.g not 1 1 u.q[0] u.p[0]",
    ),
    (
        "not connected, of kinds with a rule, on two levels",
        "module o(input [0:1] r, output wor [1:0] s); or #1 g(s[1],r[0],r[1]); endmodule "
        "module n(input wand [4:3] p); o v(p); endmodule "
        "module m; n u(); endmodule",
        "m: u.p[4]:wand u.p[3]:wand u.v.s[1]:wor u.v.s[0]:wor / u.v.g or 1 1 u.v.s[1] u.p[4] u.p[3]",
    ),
    # One that is tied to a constant is no net, on whatever level.
    (
        "tied to a constant",
        "module h(input [4:4] p, output q); buf #1 g(q,p[4]); endmodule module m(output y); h u(1'b1,y); endmodule",
        "m: y:wire / u.g buf 1 1 y 1'b1",
    ),
    (
        "tied to a constant, with a scalar below",
        "module o(input r, output q); buf #1 g(q,r); endmodule "
        "module n(input [4:4] p, output q); o v(p,q); endmodule "
        "module m(output [1:0] y); n u(1'bz,y[0]); endmodule",
        "m: y[1]:wire y[0]:wire / u.v.g buf 1 1 y[0] 1'bz",
    ),
    (
        "tied to a constant, with a bit below",
        "module o(input [1:1] r, output q); buf #1 g(q,r[1]); endmodule "
        "module n(input [4:4] p, output q); o v(p[4],q); endmodule "
        "module m(output y); n u(1'bx,y); endmodule",
        "m: y:wire / u.v.g buf 1 1 y 1'bx",
    ),
    (
        "a gate drives a port that is tied to a constant",
        "module h(input [4:4] p); not #1 g(p[4],a); endmodule\nmodule m; h\nu(1'b0); endmodule",
        "line 2: 9 PortKind",
    ),
    (
        "a gate drives a port that is tied a level above",
        "module o(output [0:0] q); not #1 g(q[0],1'b0); endmodule "
        "module n(input [3:3] p); o v(p); endmodule\nmodule m; n u(1'b1); endmodule",
        "line 2: 9 PortKind",
    ),
    (
        "a gate drives a port that is a bit a level above",
        "module o(output [0:0] q); not #1 g(q[0],1'b0); endmodule "
        "module n(input [3:3] p); o v(p[3]); endmodule\nmodule m; wire [1:0] a; n u(a[1]); endmodule",
        "m: a[1]:wire a[0]:wire / u.v.g not 1 1 a[1] 1'b0",
    ),
    # The kinds of joined vectors, and of bits.
    ("wand on wire", "module h(input wand [1:0] p); endmodule\nmodule m; wire [1:0] a; h\nu(a); endmodule", "line 2: 9 PortKind"),
    (
        "wand on triand",
        "module h(input wand [1:0] p); endmodule module m; triand [1:0] a; h u(a); endmodule",
        "m: a[1]:triand a[0]:triand",
    ),
    (
        "wor on a bit of a wire",
        "module h(output wor p); endmodule\nmodule m; wire [1:0] a; h\nu(a[1]); endmodule",
        "line 2: 9 PortKind",
    ),
    (
        "wor on a bit of a wor",
        "module h(output wor p); endmodule module m; wor [1:0] a; h u(a[1]); endmodule",
        "m: a[1]:wor a[0]:wor",
    ),
    (
        "wand below a wire, on a wand",
        "module o(output wand [1:0] q); endmodule "
        "module n(output [0:1] p); o u(p); endmodule "
        "module m; wand [1:0] a; n u(a); endmodule",
        "m: a[1]:wand a[0]:wand",
    ),
    (
        "wand below a wire that is not connected",
        "module o(output wand [1:0] q); endmodule module n(output [0:1] p); o u(p); endmodule\nmodule m; n u(); endmodule",
        "line 2: 9 PortKind",
    ),
    # An input of the design that a gate drives.
    ("a gate drives a bit of an input", "\nmodule m(input [1:0] a, b); not #1 g(a[0],b[0]); endmodule", "line 2: 11 DrivenInput"),
    (
        "a gate drives a bit of an output",
        "\nmodule m(input [1:0] a, output [1:0] b); not #1 g(b[0],a[0]); endmodule",
        "m: <a[1]:wire <a[0]:wire b[1]:wire b[0]:wire / g not 1 1 b[0] a[0]",
    ),
    (
        "a gate in an instance drives a bit of an input",
        "module h(output [1:0] q); not #1 g(q[0],1'b0); endmodule\nmodule m(input [1:0] a); h u(a); endmodule",
        "line 2: 11 DrivenInput",
    ),
    (
        "a gate in an instance drives a bit of an output",
        "module h(output [1:0] q); not #1 g(q[0],1'b0); endmodule\nmodule m(output [1:0] a); h u(a); endmodule",
        "m: a[1]:wire a[0]:wire / u.g not 1 1 a[0] 1'b0",
    ),
    (
        "a gate in an instance drives a bit of an input by a scalar",
        "module h(output q); not #1 g(q,1'b0); endmodule\nmodule m(input [1:0] a); h u(a[1]); endmodule",
        "line 2: 11 DrivenInput",
    ),
    # What is joined comes before what is driven.
    (
        "a port of another rule before a driven input",
        "module h(input wand [1:0] p); endmodule\nmodule m(input [1:0] a); not #1 g(a[0],a[1]); h u(a); endmodule",
        "line 2: 9 PortKind",
    ),
]


class Bits(WithTexts):
    def test_bits_in_order(self) -> None:
        self.check_rows(BITS)

    def test_ports_that_are_vectors(self) -> None:
        self.check_rows(PORTS)


if __name__ == "__main__":
    unittest.main()
