"""Designs of as many levels, instances, nets and gates as there may be, and of more."""
import unittest
from typing import List, Tuple

from .reading import WithTexts

# The levels of modules, the instances of the next module in each, an item of the first one, what stands behind all, and the fault
# of the text, if it has one. Two instances in each module are 65,534 to 16 levels.
TOWERS: List[Tuple[str, int, str, str, str, str]] = [
    ("32 levels", 32, "u()", "", "", ""),
    ("33 levels", 33, "u()", "", "", "11 TooMany"),
    ("40 levels", 40, "u()", "", "", "11 TooMany"),
    ("65,534 instances", 16, "u(),v()", "", "", ""),
    ("65,536 instances", 16, "u(),v()", "e w(),x();", "", ""),
    ("65,537 instances", 16, "u(),v()", "e w(),x(),y();", "", "11 TooMany"),
    ("131,070 instances", 17, "u(),v()", "", "", "11 TooMany"),
    ("over four billion instances", 32, "u(),v()", "", "", "11 TooMany"),
    # Levels and instances come before a port of another rule, and this before an input that a gate drives.
    (
        "too many levels before a port of another rule",
        33,
        "u()",
        "not #1 g(a,a); w x(a);",
        "module w(input wand p); endmodule",
        "11 TooMany",
    ),
    (
        "a port of another rule before a driven input",
        32,
        "u()",
        "not #1 g(a,a); w x(a);",
        "module w(input wand p); endmodule",
        "9 PortKind",
    ),
]

# How many gates a module has of which the top has 256 instances, its header, the header and the items of the top, and the fault.
CROWDS: List[Tuple[str, int, str, str, str]] = [
    ("65,536 nets and gates", 256, "", ";", ""),
    ("a net more", 256, "", "; wire w;", "11 TooMany"),
    ("a net more in each instance", 256, "(input p)", ";", "11 TooMany"),
    ("a gate more in each instance", 257, "", ";", "11 TooMany"),
    # A port of another rule comes before them, and an input that a gate drives behind them.
    ("a port of another rule before too many gates", 257, "(input wand p)", "; h w(b);", "9 PortKind"),
    ("too many gates before a driven input", 257, "", "(input a); not #1 g(a,a);", "11 TooMany"),
    ("a driven input alone", 255, "", "(input a); not #1 g(a,a);", "11 DrivenInput"),
]

# What stands before vectors of 65,536 bits, how many of them there are, what stands behind them, and the fault.
VECTORS: List[Tuple[str, str, int, str, str]] = [
    ("65,536 bits", "module m;", 1, "", ""),
    ("a net more", "module m;", 1, "wire w;", "11 TooMany"),
    ("300 vectors of as many", "module m;", 300, "", "11 TooMany"),
    ("300 vectors in an instance", "module m; h u(); endmodule module h;", 300, "", "11 TooMany"),
    # A port that is connected has no nets of its own, another one has.
    ("ports that are connected", "module h(input [0:65535] p); endmodule module m;", 1, "h u(v0), w(v0);", ""),
    ("a port that is not connected", "module h(input [0:65535] p); endmodule module m;", 1, "h u(v0), w();", "11 TooMany"),
    # A port of another rule comes before them, and an input that a gate drives behind them.
    ("a port of another rule before too many nets", "module h(input wand p); endmodule module m;", 300, "h u(a);", "9 PortKind"),
    (
        "a vector of another rule before too many nets",
        "module h(input wand [65535:0] p); endmodule module m;",
        300,
        "h u(v299);",
        "9 PortKind",
    ),
    ("too many nets before a driven input", "module m(input a);", 300, "not #1 g(a,a);", "11 TooMany"),
    (
        "300 vectors in each of three instances",
        "module m; h u(); endmodule module h; h2 u(), v(), w(); endmodule module h2;",
        300,
        "",
        "11 TooMany",
    ),
]


class Counts(WithTexts):
    def test_levels_and_instances(self) -> None:
        for name, levels, instances, item, behind, fault in TOWERS:
            inner = "".join(f" c{level} {instances}; endmodule\nmodule c{level};" for level in range(2, levels))
            text = f"\nmodule c1(input a); {item}{inner} e {instances}; endmodule\nmodule e; endmodule {behind}"
            with self.subTest(name):
                self.check_fault(text, fault)

    def test_nets_and_gates_of_all_instances(self) -> None:
        """They drive the nets n0 to n255 in turn."""
        more = "".join(f",u{place}()" for place in range(255))
        for name, count, header, items, fault in CROWDS:
            gates = "".join(f",(n{gate % 256},1'b0)" for gate in range(1, count))
            text = f"\nmodule m{items} h u(){more}; endmodule\nmodule h{header}; buf #1 (n0,1'b0){gates}; endmodule"
            with self.subTest(name):
                self.check_fault(text, fault)

    def test_wide_vectors(self) -> None:
        """Of many more nets than a design may have none is written out."""
        for name, before, count, behind, fault in VECTORS:
            vectors = "".join(f",v{place}" for place in range(1, count))
            with self.subTest(name):
                self.check_fault(f"\n{before} wire [65535:0] v0{vectors}; {behind} endmodule", fault)

    def test_as_many_nets_and_gates_as_there_may_be(self) -> None:
        """Each of so many gates drives a net of its own, or the first of these nets."""
        gates = "".join(f",(n{place},1'b0)" for place in range(1, 65_536))
        for more, fault in (("", ""), (",(n0,1'b0)", "11 TooMany")):
            self.check_fault(f"\nmodule m;\nbuf #1 (n0,1'b0){gates}{more};\nendmodule", fault)
        nets = "".join(f",n{place}" for place in range(65_536))
        self.check_fault(f"\nmodule m; wire n{nets}; endmodule", "11 TooMany")


if __name__ == "__main__":
    unittest.main()
