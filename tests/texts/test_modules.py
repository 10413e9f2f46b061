"""Faults of instances, and of the modules of a text together, each beside a text that has it not."""
import unittest

from .reading import Rows, WithTexts

NAMED: Rows = [
    ("no module of this name", "module m; h\nu(); endmodule", "line 2: 4 UnknownModule"),
    ("a module behind its instance", "module m; h\nu(); endmodule module h; endmodule", "m:"),
    # Each instance is looked at in the order of the text, where the design has it not too.
    (
        "an instance in a second top",
        "module m; h u(); endmodule module h; endmodule\nmodule n; k\nu(); endmodule",
        "line 3: 4 UnknownModule",
    ),
    ("the first of two instances", "module m; k\nu(); h\nv(); endmodule", "line 2: 4 UnknownModule"),
    # Names of modules are told apart by their bytes, and not by how they are written.
    ("an escaped name is the same name", "module m; \\h  u(), v(); endmodule module h; endmodule", "m:"),
]

CONNECTED: Rows = [
    ("one more than the ports", "module h(input p); endmodule module m; h\nu(a,b); endmodule", "line 2: 10 PortCount"),
    ("as many as the ports", "module h(input p); endmodule module m; h\nu(a); endmodule", "m: a:wire"),
    # Empty places are connections too.
    ("an empty place more than the ports", "module h(input p); endmodule module m; h\nu(,); endmodule", "line 2: 10 PortCount"),
    ("two empty places for two ports", "module h(input p, q); endmodule module m; h\nu(,); endmodule", "m: u.p:wire u.q:wire"),
    ("a connection without a port", "module h; endmodule module m; h\nu(a); endmodule", "line 2: 10 PortCount"),
    ("none without a port", "module h; endmodule module m; h\nu(); endmodule", "m:"),
    (
        "a net behind the ports is no port, by order",
        "module h(input p); wire n; endmodule module m; h\nu(a,b); endmodule",
        "line 2: 10 PortCount",
    ),
    (
        "a net behind the ports is no port, by name",
        "module h(input p); wire n; endmodule module m; h\nu(.n(a)); endmodule",
        "line 2: 10 PortCount",
    ),
    ("a name of no port", "module h(input p); endmodule module m; h\nu(.q()); endmodule", "line 2: 10 PortCount"),
    ("an escaped name of a port", "module h(input p); endmodule module m; wire q; h\nu(.\\p (q)); endmodule", "m: q:wire"),
    # A port is named once, if for nothing.
    ("a port named twice", "module h(input p, q); endmodule module m; h\nu(.p(a),.p(a)); endmodule", "line 2: 10 PortCount"),
    (
        "a port named twice, for nothing",
        "module h(input p, q); endmodule module m; h\nu(.p(),.q(a),.p()); endmodule",
        "line 2: 10 PortCount",
    ),
    (
        "names in another order than the ports",
        "module h(input p, q); endmodule module m; h\nu(.q(a),.p(a)); endmodule",
        "m: a:wire",
    ),
    (
        "one port named in each of two instances",
        "module h(input p, q); endmodule module m; h\nu(.q(a)), v(.q(a)); endmodule",
        "m: a:wire u.p:wire v.p:wire",
    ),
]

CONSTANTS: Rows = [
    ("on an output", "module h(output q); endmodule module m; h\nu(1'b0); endmodule", "line 2: 9 PortKind"),
    ("on an input", "module h(input q); endmodule module m; h\nu(1'b0); endmodule", "m:"),
    (
        "on an input and an output",
        "module h(input p, output q); endmodule module m; h\nu(1'b0,1'bz); endmodule",
        "line 2: 9 PortKind",
    ),
    ("on an output, by name", "module h(input p, output q); endmodule module m; h\nu(.q(1'bx)); endmodule", "line 2: 9 PortKind"),
    (
        "on an input, by name",
        "module h(p, q); output q; input p; endmodule module m; h\nu(.p(1'bx),.q()); endmodule",
        "m: u.q:wire",
    ),
    # Where the design has it not, too.
    (
        "in a second top",
        "module m; endmodule module h(output q); endmodule module n; h\nu(1'b0); endmodule",
        "line 2: 9 PortKind",
    ),
]

RINGS: Rows = [
    ("a module in itself", "module m;\nm u(); endmodule", "line 1: 5 Recursive"),
    ("at the word module, and not at the name", "\nmodule\nm;\nm u(); endmodule", "line 2: 5 Recursive"),
    # The first module of the text that is on a ring, and not one that only leads to it.
    (
        "the first module on the ring, and not one that leads to it",
        "module a; b u(); endmodule\nmodule b; c u(); endmodule\nmodule c; b u(); endmodule",
        "line 2: 5 Recursive",
    ),
    ("a chain is no ring", "module a; b u(); endmodule\nmodule b; c u(); endmodule\nmodule c; endmodule", "a:"),
    (
        "a ring of three that another module leads to",
        "module m; z u(); endmodule\nmodule x; y u(); endmodule\nmodule y; z u(); endmodule\nmodule z; x u(); endmodule",
        "line 2: 5 Recursive",
    ),
    (
        "a module that a ring leads to is on none",
        "module h; endmodule\nmodule m; a u(); endmodule\nmodule a; h u(); b v(); endmodule\nmodule b; h u(); a v(); endmodule",
        "line 3: 5 Recursive",
    ),
    (
        "two ways to one module",
        "module a; b u(); c v(); endmodule module b; d u(); endmodule module c; d u(); endmodule module d; endmodule",
        "a:",
    ),
    # Where the design has it not, too.
    ("a module in itself beside a top", "module m; endmodule\nmodule a; a u(); endmodule", "line 2: 5 Recursive"),
    (
        "a ring beside a top",
        "module m; h u(); endmodule\nmodule h; endmodule\nmodule a; b u(); endmodule\nmodule b; a u(); endmodule",
        "line 3: 5 Recursive",
    ),
    # Without a module that no other has an instance of, there is a ring.
    ("a ring without a top", "\nmodule a; b u(); endmodule module b; a u(); endmodule", "line 2: 5 Recursive"),
]

TOPS: Rows = [
    ("no module", "", "line 1: 6 NoTop"),
    ("one module", "module m; endmodule", "m:"),
    ("two tops", "module m; endmodule\nmodule n; endmodule", "line 2: 7 ManyTops"),
    ("a top before its module", "module m; n u(); endmodule\nmodule n; endmodule", "m:"),
    (
        "the second top, and not the second module",
        "module h; endmodule\nmodule m; h u(); endmodule\nmodule\nn; h u(); endmodule\nmodule o; endmodule",
        "line 3: 7 ManyTops",
    ),
    ("a top behind its module", "module h; endmodule module m; h u(); endmodule", "m:"),
    (
        "a module that two others have instances of",
        "module k; endmodule module h; k u(); endmodule module m; h u(); k v(); endmodule",
        "m:",
    ),
]


class Modules(WithTexts):
    def test_modules_that_the_text_has_not(self) -> None:
        self.check_rows(NAMED)

    def test_connections_and_ports(self) -> None:
        self.check_rows(CONNECTED)

    def test_constants_at_ports(self) -> None:
        self.check_rows(CONSTANTS)

    def test_rings(self) -> None:
        self.check_rows(RINGS)

    def test_tops(self) -> None:
        self.check_rows(TOPS)


if __name__ == "__main__":
    unittest.main()
