"""Which of two faults of one text is told, where the text has many modules."""
import unittest

from .reading import Rows, WithTexts

# Tokens, instances, modules together, the design: the first of these with a fault gives it.
PASSES: Rows = [
    ("a token before an instance without its module", "module m; h u();\n@", "line 2: 3 Unsupported"),
    (
        "a token before a constant on an output",
        "module h(output q); endmodule module m; h u(1'b0); endmodule module\nh;",
        "line 2: 11 DuplicateName",
    ),
    ("a token before a module in itself", "module m; m u(); endmodule module\nm;", "line 2: 11 DuplicateName"),
    ("a token before two tops", "module m; endmodule module n; endmodule\nx", "line 2: 2 Syntax"),
    (
        "a token before a port of another rule",
        "module h(input wand p); endmodule module m; h u(a); endmodule\nalways",
        "line 2: 3 Unsupported",
    ),
    (
        "an instance without its module before a module in itself",
        "module m; m u(); endmodule module n; h\nu(); endmodule",
        "line 2: 4 UnknownModule",
    ),
    ("a constant on an output before a module in itself", "module m(output q); m\nu(1'b0); endmodule", "line 2: 9 PortKind"),
    (
        "a connection too many before three tops",
        "module m; endmodule module n; endmodule module h; endmodule module o; h\nu(a); endmodule",
        "line 2: 10 PortCount",
    ),
    (
        "a constant on an output before a port of another rule",
        "module h(input wand p, output q); endmodule module m; h\nu(a,1'b0); endmodule",
        "line 2: 9 PortKind",
    ),
    (
        "a connection too many before a driven input",
        "module h(output q); not #1 g(q,1'b0); endmodule module m(input a); h u(a),\nv(a,a); endmodule",
        "line 2: 10 PortCount",
    ),
    (
        "two tops before a port of another rule",
        "module h(input wand p); endmodule module m; h u(a); endmodule\nmodule n; endmodule",
        "line 2: 7 ManyTops",
    ),
    (
        "a module in itself before a port of another rule",
        "module h(input wand p); endmodule module m; h u(a); endmodule\nmodule r; r u(); endmodule",
        "line 2: 5 Recursive",
    ),
]

# Of instances the first one with a fault, and all that is wrong with its number of connections before a constant.
INSTANCES: Rows = [
    (
        "a constant on an output in the first of two instances",
        "module h(output q); endmodule module m; h\nu(1'b0); k\nv(); endmodule",
        "line 2: 9 PortKind",
    ),
    (
        "an instance without its module before a constant on an output",
        "module h(output q); endmodule module m; k\nv(); h\nu(1'b0); endmodule",
        "line 2: 4 UnknownModule",
    ),
    (
        "a constant on an output before a connection too many",
        "module h(output q); endmodule module m; h\nu(1'b0); h\nv(a,b); endmodule",
        "line 2: 9 PortKind",
    ),
    (
        "a connection too many and a constant in one instance",
        "module h(output q); endmodule module m; h\nu(1'b0,a); endmodule",
        "line 2: 10 PortCount",
    ),
    (
        "a name of no port and a constant in one instance",
        "module h(output q); endmodule module m; h\nu(.q(1'b0),.r()); endmodule",
        "line 2: 10 PortCount",
    ),
    (
        "a port named twice and a constant in one instance",
        "module h(output q); endmodule module m; h\nu(.q(1'b0),.q(a)); endmodule",
        "line 2: 10 PortCount",
    ),
    ("a ring before two tops", "module m; endmodule module n; endmodule\nmodule a; a u(); endmodule", "line 2: 5 Recursive"),
]

# A port of another rule, or a gate at a constant, in any instance, comes before an input that a gate drives.
DESIGNS: Rows = [
    (
        "a port of another rule before a driven input",
        "module h(input wand p); not #1 g(p,1'b0); endmodule\nmodule m(input a); h u(a); endmodule",
        "line 2: 9 PortKind",
    ),
    (
        "a driven input alone",
        "module h(input p); not #1 g(p,1'b0); endmodule\nmodule m(input a); h u(a); endmodule",
        "line 2: 11 DrivenInput",
    ),
    (
        "a port of another rule in an instance behind a driven input",
        "module h(input wand p); endmodule\nmodule m(input a); not #1 g(a,b); h u(b); endmodule",
        "line 2: 9 PortKind",
    ),
    (
        "a gate at a constant in an instance behind a driven input",
        "module h(input p); not #1 g(p,p); endmodule\nmodule m(input a); h u(a), v(1'b0); endmodule",
        "line 2: 9 PortKind",
    ),
]


class FirstFaults(WithTexts):
    def test_passes_in_order(self) -> None:
        self.check_rows(PASSES)

    def test_instances_in_order(self) -> None:
        self.check_rows(INSTANCES)

    def test_faults_of_the_design_in_order(self) -> None:
        self.check_rows(DESIGNS)


if __name__ == "__main__":
    unittest.main()
