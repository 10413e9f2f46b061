"""The designs that texts of many modules spell: which nets and gates they have, in which order, and under which names."""
import unittest

from .reading import Rows, WithTexts

ORDER: Rows = [
    (
        "the nets and gates of an instance have its name before theirs",
        "module h(p,q); input p; output q; wire t; not #1 g(t,p); not #1 g2(q,t); endmodule "
        "module m(a,y); input a; output y; h u(a,y); endmodule",
        "m: <a:wire y:wire u.t:wire / u.g not 1 1 u.t a / u.g2 not 1 1 y u.t",
    ),
    # An instance comes with all that is in it before the next one; an item of its module may stand anywhere.
    (
        "an instance comes with all that is in it before the next one",
        "module m; wire a; n u(), v(); wire b; endmodule "
        "module n; wire c; o w(); o x(); wire d; endmodule "
        "module o; wire e; endmodule",
        "m: a:wire b:wire u.c:wire u.d:wire u.w.e:wire u.x.e:wire v.c:wire v.d:wire v.w.e:wire v.x.e:wire",
    ),
    (
        "gates come in the same order",
        "module o; not #3 (c,c); endmodule "
        "module n; o w(); not #2 g(b,b); endmodule "
        "module m; n u(); o v(); not #1 g(a,a); endmodule",
        "m: a:wire u.b:wire u.w.c:wire v.c:wire / g not 1 1 a a / u.g not 2 2 u.b u.b / u.w.$1 not 3 3 u.w.c u.w.c"
        " / v.$1 not 3 3 v.c v.c",
    ),
    (
        "ports that are not connected stand before other nets",
        "module m(a); input a; h u(,a); endmodule module h(p,q,r); wire n; input r; input q; output p; endmodule",
        "m: <a:wire u.p:wire u.r:wire u.n:wire",
    ),
    (
        "the made names of gates are those of their module",
        "module m; not #1 (x,x); h u(); endmodule module h; buf #1 g(y,z,a), (b,a), (c,d,a); endmodule",
        "m: x:wire u.y:wire u.z:wire u.a:wire u.b:wire u.c:wire u.d:wire / $1 not 1 1 x x / u.g$1 buf 1 1 u.y u.a"
        " / u.g$2 buf 1 1 u.z u.a / u.$1 buf 1 1 u.b u.a / u.$2$1 buf 1 1 u.c u.a / u.$2$2 buf 1 1 u.d u.a",
    ),
    (
        "escaped names in an instance",
        "module m; h \\u+ (); endmodule module h; wire \\a/b ; not #1 \\$x (\\n1 ,n1); endmodule",
        "m: u+.a/b:wire u+.n1:wire / u+.$x not 1 1 u+.n1 u+.n1",
    ),
]

CONNECTED: Rows = [
    # A connected port is the net outside, with its name, its place and its kind.
    (
        "a port is the net outside, by order",
        "module h(input p, output q); not #1 g(q,p); endmodule module m(input a, output y); wire n; h u(a,n), v(n,y); endmodule",
        "m: <a:wire y:wire n:wire / u.g not 1 1 n a / v.g not 1 1 y n",
    ),
    (
        "a port is the net outside, by name",
        "module h(input p, output q); not #1 g(q,p); endmodule "
        "module m(input a, output y); h u(.q(n),.p(a)), v(.q(y),.p(n)); endmodule",
        "m: <a:wire y:wire n:wire / u.g not 1 1 n a / v.g not 1 1 y n",
    ),
    (
        "two ports on one net, and two gates that drive it",
        "module m; h u(a,a), v(b,a); endmodule module h(p,q); input p; output q; not #1 g(q,p); endmodule",
        "m: a:wire b:wire / u.g not 1 1 a a / v.g not 1 1 a b",
    ),
    (
        "through two levels",
        "module m(input a, output y); n u(y,a); endmodule "
        "module n(output q, input p); o v(p,q); endmodule "
        "module o(input p, output q); not #1 g(q,p); endmodule",
        "m: <a:wire y:wire / u.v.g not 1 1 y a",
    ),
    (
        "a net in between is one of the instance around it",
        "module m(input a, output y); n u(y,a); endmodule "
        "module n(output q, input p); o v(p,t), w(t,q); endmodule "
        "module o(input p, output q); not #1 g(q,p); endmodule",
        "m: <a:wire y:wire u.t:wire / u.v.g not 1 1 u.t a / u.w.g not 1 1 y u.t",
    ),
    # A port of a kind `wire` or `tri` takes the kind of the net outside, through a level in between too.
    (
        "ports of the kinds wire and tri take the kind outside",
        "module m; wand a; trior b; n u(a,b); endmodule "
        "module n(output wire p, output tri q); o v(p,q); endmodule "
        "module o(output p, output wire q); endmodule",
        "m: a:wand b:trior",
    ),
    (
        "a port in between takes the kind outside too",
        "module m; wand a; n u(a); endmodule "
        "module n(p); output p; o v(p); endmodule "
        "module o(output wand q); buf #1 g(q,1'b1); endmodule",
        "m: a:wand / u.v.g buf 1 1 a 1'b1",
    ),
    (
        "a gate drives an input port of its module",
        "module m; h u(a); endmodule module h(input p); not #1 g(p,1'b0); endmodule",
        "m: a:wire / u.g not 1 1 a 1'b0",
    ),
]

UNCONNECTED: Rows = [
    # A port that is connected to nothing is a net of the instance, and no input of the design.
    (
        "nets of the instance, and no inputs of the design",
        "module m; h u(); endmodule module h(input p, output q); not #1 g(q,p); endmodule",
        "m: u.p:wire u.q:wire / u.g not 1 1 u.q u.p",
    ),
    (
        "an empty place",
        "module m(a); input a; h u(,a); endmodule module h(p,q); input p,q; and #1 g(n,p,q); endmodule",
        "m: <a:wire u.p:wire u.n:wire / u.g and 1 1 u.n u.p a",
    ),
    (
        "an empty pair of parentheses behind a name",
        "module m(a); input a; h u(.q(a),.p()); endmodule module h(p,q); input p,q; and #1 g(n,p,q); endmodule",
        "m: <a:wire u.p:wire u.n:wire / u.g and 1 1 u.n u.p a",
    ),
    (
        "fewer connections than ports",
        "module m(a); input a; h u(a); endmodule module h(p,q); input p,q; and #1 g(n,p,q); endmodule",
        "m: <a:wire u.q:wire u.n:wire / u.g and 1 1 u.n a u.q",
    ),
    (
        "a port that is not named",
        "module m(a); input a; h u(.q(a)); endmodule module h(p,q); input p,q; and #1 g(n,p,q); endmodule",
        "m: <a:wire u.p:wire u.n:wire / u.g and 1 1 u.n u.p a",
    ),
    (
        "its own kind goes to what is below",
        "module m; n u(); endmodule "
        "module n(input wand p, output trior q); o v(p,q); endmodule "
        "module o(input p, output wor q); not #1 g(q,p); endmodule",
        "m: u.p:wand u.q:trior / u.v.g not 1 1 u.q u.p",
    ),
    (
        "pulled ports",
        "module m; n u(); endmodule module n(input tri0 p, output tri1 q); not #1 g(q,p); endmodule",
        "m: u.p:tri0 u.q:tri1 / u.g not 1 1 u.q u.p",
    ),
    (
        "a port in between, and one below",
        "module m(input a); n u(a); endmodule "
        "module n(input p, r); o v(r,,p); endmodule "
        "module o(input p, q, r); nor #1 g(q,p,r); endmodule",
        "m: <a:wire u.r:wire u.v.q:wire / u.v.g nor 1 1 u.v.q u.r a",
    ),
]

TIED: Rows = [
    (
        "the constant stands at each terminal, and the port is no net",
        "module m(output y); h u(y,1'b1); endmodule module h(output q, input p); and #1 g(q,p,p), (n,p,q); endmodule",
        "m: y:wire u.n:wire / u.g and 1 1 y 1'b1 1'b1 / u.$1 and 1 1 u.n 1'b1 y",
    ),
    (
        "by name",
        "module m; h u(.p(1'bz)); endmodule module h(output q, input p); not #1 g(q,p); endmodule",
        "m: u.q:wire / u.g not 1 1 u.q 1'bz",
    ),
    (
        "through two levels",
        "module m(output y); n u(y,1'bX); endmodule "
        "module n(output q, input p); o v(q,p); endmodule "
        "module o(output q, input p, r); or #1 g(q,p,r); endmodule",
        "m: y:wire u.v.r:wire / u.v.g or 1 1 y 1'bx u.v.r",
    ),
    (
        "each instance has its own constant",
        "module m; h u(a,1'b0), v(b,1'b1), w(c,a); endmodule module h(output q, input p); buf #1 g(q,p); endmodule",
        "m: a:wire b:wire c:wire / u.g buf 1 1 a 1'b0 / v.g buf 1 1 b 1'b1 / w.g buf 1 1 c a",
    ),
    (
        "the kind of the port counts for nothing",
        "module m; n u(1'b0); endmodule "
        "module n(input wand p); o v(p); endmodule "
        "module o(input wor p); not #1 g(q,p); endmodule",
        "m: u.v.q:wire / u.v.g not 1 1 u.v.q 1'b0",
    ),
    # Without a gate that drives it, an output below may be joined to a port that is tied.
    (
        "an output below that no gate drives",
        "module m; n u(1'b0); endmodule module n(input p); o v(p); endmodule module o(output q); not #1 g(r,q); endmodule",
        "m: u.v.r:wire / u.v.g not 1 1 u.v.r 1'b0",
    ),
]


class Hierarchies(WithTexts):
    def test_nets_and_gates_in_order(self) -> None:
        self.check_rows(ORDER)

    def test_ports_that_are_connected(self) -> None:
        self.check_rows(CONNECTED)

    def test_ports_that_are_not_connected(self) -> None:
        self.check_rows(UNCONNECTED)

    def test_ports_that_are_tied_to_a_constant(self) -> None:
        self.check_rows(TIED)


if __name__ == "__main__":
    unittest.main()
