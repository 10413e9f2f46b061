"""Names of 1,024 bytes, as many as there may be, and of more: those of modules, and those of nets and gates, with the instances
on the way to them, the dots, the brackets and the indexes."""
import unittest
from typing import List, Tuple

from .reading import WithTexts

# A name that says what the row shows, what stands before the long name, how long it is, what stands behind it, and the fault of
# the text at its module on the second line, if it has one.
LongNames = List[Tuple[str, str, int, str, str]]

SCALARS: LongNames = [
    ("a net in an instance", "module m; h u(); endmodule module h; wire ", 1_022, "; endmodule", ""),
    ("a net in an instance, a byte more", "module m; h u(); endmodule module h; wire ", 1_023, "; endmodule", "11 BadName"),
    ("a gate in an instance", "module m; h u(); endmodule module h; not #1 ", 1_022, "(y,y); endmodule", ""),
    (
        "a gate in an instance, a byte more",
        "module m; h u(); endmodule module h; not #1 ",
        1_023,
        "(y,y); endmodule",
        "11 BadName",
    ),
    # with `$1` behind it
    ("the gates of one with two outputs", "module m; h u(); endmodule module h; buf #1 ", 1_020, "(y,z,a); endmodule", ""),
    (
        "the gates of one with two outputs, a byte more",
        "module m; h u(); endmodule module h; buf #1 ",
        1_021,
        "(y,z,a); endmodule",
        "11 BadName",
    ),
    ("a net two levels down", "module m; k u(); endmodule module k; h v(); endmodule module h; wire ", 1_020, "; endmodule", ""),
    (
        "a net two levels down, a byte more",
        "module m; k u(); endmodule module k; h v(); endmodule module h; wire ",
        1_021,
        "; endmodule",
        "11 BadName",
    ),
    # before `.y`, and before `.$1`
    ("an instance with a net", "module m; h ", 1_022, "(); endmodule module h; wire y; endmodule", ""),
    ("an instance with a net, a byte more", "module m; h ", 1_023, "(); endmodule module h; wire y; endmodule", "11 BadName"),
    ("an instance with an unnamed gate", "module m; h ", 1_021, "(); endmodule module h; not #1 (y,y); endmodule", ""),
    (
        "an instance with an unnamed gate, a byte more",
        "module m; h ",
        1_022,
        "(); endmodule module h; not #1 (y,y); endmodule",
        "11 BadName",
    ),
    # The name of an instance alone is none of the design, and nor is a port that is connected.
    ("an instance without anything", "module m; h ", 1_024, "(); endmodule module h; endmodule", ""),
    ("an instance whose port is connected", "module m; h ", 1_024, "(a); endmodule module h(input p); endmodule", ""),
    ("an instance whose port is tied to a constant", "module m; h ", 1_024, "(1'b0); endmodule module h(input p); endmodule", ""),
    (
        "an instance whose port is not connected",
        "module m; h ",
        1_024,
        "(); endmodule module h(input p); endmodule",
        "11 BadName",
    ),
    ("a port that is connected", "module m; h u(a); endmodule module h(input ", 1_024, "); endmodule", ""),
    ("a port that is tied to a constant", "module m; h u(1'bx); endmodule module h(input ", 1_024, "); endmodule", ""),
    ("a port that is not connected", "module m; h u(); endmodule module h(input ", 1_022, "); endmodule", ""),
    (
        "a port that is not connected, a byte more",
        "module m; h u(); endmodule module h(input ",
        1_023,
        "); endmodule",
        "11 BadName",
    ),
    # A port of another rule comes before it, and an input that a gate drives behind it.
    (
        "a port of another rule before a long name",
        "module m; h u(a); endmodule module h(input wand p); wire ",
        1_023,
        "; endmodule",
        "9 PortKind",
    ),
    (
        "a long name before a driven input",
        "module m(input a); h u(a); endmodule module h(input p); not #1 g(p,p); wire ",
        1_023,
        "; endmodule",
        "11 BadName",
    ),
    (
        "a driven input alone",
        "module m(input a); h u(a); endmodule module h(input p); not #1 g(p,p); wire ",
        1_022,
        "; endmodule",
        "11 DrivenInput",
    ),
    (
        "a gate at a constant before a long name",
        "module m; h u(1'b0); endmodule module h(input p); not #1 g(p,p); wire ",
        1_023,
        "; endmodule",
        "9 PortKind",
    ),
]

BITS: LongNames = [
    ("a scalar of a length at which no bit may have it", "module m; wire ", 1_022, "; endmodule", ""),
    ("a scalar of the longest name", "module m; wire ", 1_024, "; endmodule", ""),
    ("a bit", "module m; wire [0:0] ", 1_021, "; endmodule", ""),
    ("a bit, a byte more", "module m; wire [0:0] ", 1_022, "; endmodule", "11 BadName"),
    ("a bit of the longest name that a vector may have", "module m; wire [0:0] ", 1_024, "; endmodule", "11 BadName"),
    ("a bit of a port", "module m(input [9:8] ", 1_021, "); endmodule", ""),
    ("a bit of a port, a byte more", "module m(input [9:8] ", 1_022, "); endmodule", "11 BadName"),
    # The longest index may be at either end.
    ("the longest index on the left", "module m; wire [10:9] ", 1_020, "; endmodule", ""),
    ("the longest index on the left, a byte more", "module m; wire [10:9] ", 1_021, "; endmodule", "11 BadName"),
    ("the longest index on the right", "module m; wire [9:10] ", 1_020, "; endmodule", ""),
    ("the longest index on the right, a byte more", "module m; wire [9:10] ", 1_021, "; endmodule", "11 BadName"),
    ("an index of three digits", "module m; wire [0:100] ", 1_019, "; endmodule", ""),
    ("an index of three digits, a byte more", "module m; wire [0:100] ", 1_020, "; endmodule", "11 BadName"),
    ("an index of five digits", "module m; wire [65535:65535] ", 1_017, "; endmodule", ""),
    ("an index of five digits, a byte more", "module m; wire [65535:65535] ", 1_018, "; endmodule", "11 BadName"),
    # In an instance, with its path.
    ("a bit in an instance", "module m; h u(); endmodule module h; wire [0:0] ", 1_019, "; endmodule", ""),
    ("a bit in an instance, a byte more", "module m; h u(); endmodule module h; wire [0:0] ", 1_020, "; endmodule", "11 BadName"),
    ("an instance with bits", "module m; h ", 1_019, "(); endmodule module h; wire [9:0] y; endmodule", ""),
    (
        "an instance with bits, a byte more",
        "module m; h ",
        1_020,
        "(); endmodule module h; wire [9:0] y; endmodule",
        "11 BadName",
    ),
    # A port that is connected has no name of its own.
    ("a port that is connected", "module m; wire [1:0] a; h u(a); endmodule module h(input [1:0] ", 1_024, "); endmodule", ""),
    ("a port that is tied to a constant", "module m; h u(1'b0); endmodule module h(input [0:0] ", 1_024, "); endmodule", ""),
    ("a port that is not connected", "module m; h u(); endmodule module h(input [1:0] ", 1_020, "); endmodule", "11 BadName"),
    # It comes before a number of nets that is too great.
    ("too many nets alone", "module m; wire [65535:0] a, ", 1_017, "; endmodule", "11 TooMany"),
    ("a long name before too many nets", "module m; wire [65535:0] a, ", 1_018, "; endmodule", "11 BadName"),
    # A port of another rule comes before it, and an input that a gate drives behind it.
    (
        "a port of another rule before a long name",
        "module m; h u(a); endmodule module h(input wand p); wire [0:0] ",
        1_024,
        "; endmodule",
        "9 PortKind",
    ),
    ("a long name before a driven input", "module m(input a); not #1 g(a,a); wire [0:0] ", 1_022, "; endmodule", "11 BadName"),
]

# What stands behind the module's name, the length of the name of a gate of two outputs, from which `$1` and `$2` make names, and
# the fault.
MADE: List[Tuple[str, str, int, str]] = [
    ("as long as it may be", "", 1_022, ""),
    ("a byte more", "", 1_023, "11 BadName"),
    ("a long name before a driven input", "(input y)", 1_023, "11 BadName"),
    ("a driven input alone", "(input y)", 1_022, "11 DrivenInput"),
]


class LongNamesOfDesigns(WithTexts):
    def check_rows_of_names(self, rows: LongNames) -> None:
        for name, before, length, behind, fault in rows:
            with self.subTest(name):
                self.check_fault("\n" + before + "n" * length + behind, fault)

    def test_names_of_nets_and_gates(self) -> None:
        self.check_rows_of_names(SCALARS)

    def test_names_of_bits(self) -> None:
        self.check_rows_of_names(BITS)

    def test_names_that_are_made_of_a_gate(self) -> None:
        for name, header, length, fault in MADE:
            with self.subTest(name):
                self.check_fault(f"\nmodule m{header};\nbuf #1 {'g' * length}(y,z,a);\nendmodule", fault)

    def test_names_of_modules(self) -> None:
        self.check_fault(f"\nmodule {'n' * 1_024}; endmodule", "")
        self.check_fault(f"\nmodule {'n' * 1_025}; endmodule", "11 BadName")

    def test_a_long_name_among_too_many_nets(self) -> None:
        """The two names that are made of one of 1,023 bytes are over the limit, and that is looked for first."""
        nets = "".join(f",n{place}" for place in range(65_536))
        for length, fault in ((1_022, "11 TooMany"), (1_023, "11 BadName")):
            self.check_fault(f"\nmodule m; wire n{nets}; buf #1 {'g' * length} (n0,n1,n); endmodule", fault)


if __name__ == "__main__":
    unittest.main()
