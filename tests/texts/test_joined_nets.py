"""Ports and the nets that they are connected to: by which rules both resolve, and which gates may drive them."""
import unittest

from .reading import Rows, WithTexts

# A port `p` of the first kind is connected to the net `a` of the second one.
KINDS: Rows = [
    ("wand on a wire", "module h(input wand p); endmodule\nmodule m; wire a; h\nu(a); endmodule", "line 2: 9 PortKind"),
    ("wand on an implicit wire", "module h(input wand p); endmodule\nmodule m; h\nu(a); endmodule", "line 2: 9 PortKind"),
    ("wand on wor", "module h(input wand p); endmodule\nmodule m; wor a; h\nu(a); endmodule", "line 2: 9 PortKind"),
    ("wand on wand", "module h(input wand p); endmodule\nmodule m; wand a; h\nu(a); endmodule", "m: a:wand"),
    ("wand on triand", "module h(input wand p); endmodule\nmodule m; triand a; h\nu(a); endmodule", "m: a:triand"),
    ("triand on tri", "module h(output triand p); endmodule\nmodule m; tri a; h\nu(a); endmodule", "line 2: 9 PortKind"),
    ("triand on wand, by name", "module h(output triand p); endmodule\nmodule m; wand a; h\nu(.p(a)); endmodule", "m: a:wand"),
    ("wor on triand", "module h(output wor p); endmodule\nmodule m; triand a; h\nu(a); endmodule", "line 2: 9 PortKind"),
    ("wor on trior", "module h(output wor p); endmodule\nmodule m; trior a; h\nu(a); endmodule", "m: a:trior"),
    ("trior on tri", "module h(output trior p); endmodule\nmodule m; tri a; h\nu(a); endmodule", "line 2: 9 PortKind"),
    ("trior on wor", "module h(output trior p); endmodule\nmodule m; wor a; h\nu(a); endmodule", "m: a:wor"),
    (
        "tri on triand and on wor",
        "module h(output tri p, q); endmodule\nmodule m; triand a; wor b; h\nu(a,b); endmodule",
        "m: a:triand b:wor",
    ),
    ("tri0 on a wire", "module h(input tri0 p); endmodule\nmodule m; wire a; h\nu(a); endmodule", "line 2: 9 PortKind"),
    ("tri0 on an implicit wire", "module h(input tri0 p); endmodule\nmodule m; h\nu(a); endmodule", "line 2: 9 PortKind"),
    ("tri0 on tri1", "module h(input tri0 p); endmodule\nmodule m; tri1 a; h\nu(a); endmodule", "line 2: 9 PortKind"),
    ("tri0 on tri0", "module h(input tri0 p); endmodule\nmodule m; tri0 a; h\nu(a); endmodule", "m: a:tri0"),
    ("tri1 on tri", "module h(output tri1 p); endmodule\nmodule m; tri a; h\nu(a); endmodule", "line 2: 9 PortKind"),
    ("tri1 on tri0", "module h(output tri1 p); endmodule\nmodule m; tri0 a; h\nu(a); endmodule", "line 2: 9 PortKind"),
    ("tri1 on wor", "module h(output tri1 p); endmodule\nmodule m; wor a; h\nu(a); endmodule", "line 2: 9 PortKind"),
    ("tri1 on tri1, by name", "module h(output tri1 p); endmodule\nmodule m; tri1 a; h\nu(.p(a)); endmodule", "m: a:tri1"),
    ("wand on tri1", "module h(output wand p); endmodule\nmodule m; tri1 a; h\nu(a); endmodule", "line 2: 9 PortKind"),
    (
        "tri on tri0 and on tri1",
        "module h(output tri p, q); endmodule\nmodule m; tri0 a; tri1 b; h\nu(a,b); endmodule",
        "m: a:tri0 b:tri1",
    ),
]

# A port of `o` in `n`, and one of `n` in `m`: each is asked against the net of the design.
LEVELS: Rows = [
    (
        "wand below a wire, on an implicit wire",
        "module o(output wand q); endmodule module n(output p); o u(p); endmodule\nmodule m; n u(a); endmodule",
        "line 2: 9 PortKind",
    ),
    (
        "wand below a wire, on a wand",
        "module o(output wand q); endmodule module n(output p); o u(p); endmodule\nmodule m; wand a; n u(a); endmodule",
        "m: a:wand",
    ),
    (
        "wand in between, on an implicit wire",
        "module o(output q); endmodule module n(output wand p); o u(p); endmodule\nmodule m; n u(a); endmodule",
        "line 2: 9 PortKind",
    ),
    (
        "wor in between, on a wand",
        "module o(output wand q); endmodule module n(output wor p); o u(p); endmodule\nmodule m; wand a; n u(a); endmodule",
        "line 2: 9 PortKind",
    ),
    (
        "wand on an implicit wire within an instance",
        "module o(output wand q); endmodule module n; o u(p); endmodule\nmodule m; n u(); endmodule",
        "line 2: 9 PortKind",
    ),
    (
        "wand below a wand that is not connected",
        "module o(output wand q); endmodule module n(output wand p); o u(p); endmodule\nmodule m; n u(); endmodule",
        "m: u.p:wand",
    ),
    (
        "wand that is not connected, two levels down",
        "module o(output wand q); endmodule module n; o u(); endmodule\nmodule m; n u(); endmodule",
        "m: u.u.q:wand",
    ),
]

DRIVEN: Rows = [
    (
        "a gate drives a port that is tied to a constant",
        "module h(input p); not #1 g(p,p); endmodule\nmodule m; h\nu(1'b0); endmodule",
        "line 2: 9 PortKind",
    ),
    (
        "a gate reads a port that is tied to a constant",
        "module h(input p); not #1 g(q,p); endmodule\nmodule m; h\nu(1'b0); endmodule",
        "m: u.q:wire / u.g not 1 1 u.q 1'b0",
    ),
    (
        "a gate drives a port that is not connected",
        "module h(input p); not #1 g(p,p); endmodule\nmodule m; h\nu(); endmodule",
        "m: u.p:wire / u.g not 1 1 u.p u.p",
    ),
    (
        "a gate drives a port that is tied a level above",
        "module o(output q); not #1 g(q,1'b0); endmodule module n(input p); o u(p); endmodule\nmodule m; n u(1'b1); endmodule",
        "line 2: 9 PortKind",
    ),
    (
        "a gate drives a port that is a net a level above",
        "module o(output q); not #1 g(q,1'b0); endmodule module n(input p); o u(p); endmodule\nmodule m; n u(a); endmodule",
        "m: a:wire / u.u.g not 1 1 a 1'b0",
    ),
    # A gate drives an input of the design from below, by an output port or by an input port.
    (
        "a gate drives an input of the design by an output port",
        "module h(output q); not #1 g(q,1'b0); endmodule\nmodule m(input a); h\nu(a); endmodule",
        "line 2: 11 DrivenInput",
    ),
    (
        "a gate drives an output of the design by an output port",
        "module h(output q); not #1 g(q,1'b0); endmodule\nmodule m(output a); h\nu(a); endmodule",
        "m: a:wire / u.g not 1 1 a 1'b0",
    ),
    (
        "a gate drives an input of the design by two input ports",
        "module o(input q); not #1 g(q,1'b0); endmodule "
        "module n(input p); o u(p); endmodule\nmodule m(a); input a; n u(a); endmodule",
        "line 2: 11 DrivenInput",
    ),
]


class JoinedNets(WithTexts):
    def test_kinds(self) -> None:
        self.check_rows(KINDS)

    def test_kinds_through_levels(self) -> None:
        self.check_rows(LEVELS)

    def test_ports_that_gates_drive(self) -> None:
        self.check_rows(DRIVEN)


if __name__ == "__main__":
    unittest.main()
