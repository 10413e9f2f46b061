"""Texts that end too soon: what is read of a text that is cut behind each of its bytes, worked out by hand."""
import unittest
from typing import List, Tuple

from .reading import WithTexts

# A piece of a text, and what is read of the text up to any byte of the piece, this byte with it.
Cuts = List[Tuple[str, str]]

ONE_MODULE = """module m (a,b,y);
 input a,b;
 output y;
 nand NAND2_1 (t, a, b);
 not (y, t);
endmodule"""

# `end` is a word that is refused, where an item may stand.
CUTS_OF_ONE_MODULE: Cuts = [
    ("module m (a,b,y);", "line 1: 2 Syntax"),
    ("\n input a,b;", "line 2: 2 Syntax"),
    ("\n output y;", "line 3: 2 Syntax"),
    ("\n nand NAND2_1 (t, a, b);", "line 4: 2 Syntax"),
    ("\n not (y, t);", "line 5: 2 Syntax"),
    ("\nen", "line 6: 2 Syntax"),
    ("d", "line 6: 3 Unsupported"),
    ("modul", "line 6: 2 Syntax"),
    ("e", "m: <a:wire <b:wire y:wire t:wire / NAND2_1 nand 2 2 t a b / $1 not 2 2 y t"),
]

TWO_MODULES = (
    "module h(p,q); input p; output q; wire t; not #1 g(t,p); not #1 g2(q,t); endmodule "
    "module m(a,y); input a; output y; h u(a,y); endmodule"
)

# Up to its first letter, `g2` is the name of the gate before it. The first module is a design by itself.
CUTS_OF_TWO_MODULES: Cuts = [
    ("module h(p,q); input p; output q; wire t; not #1 g(t,p); not #1 ", "line 1: 2 Syntax"),
    ("g", "line 1: 11 DuplicateName"),
    ("2(q,t); en", "line 1: 2 Syntax"),
    ("d", "line 1: 3 Unsupported"),
    ("modul", "line 1: 2 Syntax"),
    ("e ", "h: <p:wire q:wire t:wire / g not 1 1 t p / g2 not 1 1 q t"),
    ("module m(a,y); input a; output y; h u(a,y); en", "line 1: 2 Syntax"),
    ("d", "line 1: 3 Unsupported"),
    ("modul", "line 1: 2 Syntax"),
    ("e", "m: <a:wire y:wire u.t:wire / u.g not 1 1 u.t a / u.g2 not 1 1 y u.t"),
]

ALL_FORMS = """`timescale 10 us / 1 ns
module k(input a); buf #1 (a, 1'b1); endmodule
module l; endmodule
module \\m+ (input [15:10] v, output (*) strong
 *) y);
 wire \\v[12]b , regular;
 bufif1 #05 (regular, v[12], 1'b1);
 /* of
 two */ h \\$end2 (v, y), u2(.q(y)); k w(); l x();
endmodule // the top
`timescale 10us/1ps
module h(p, q);
 output q; input [0:5] p;
 nand #(0_5,3) g(q, p[0], p[5]), (q, p[3], 1'bZ);
endmodule
"""

# No gate has a default delay. The gate of `k` drives its input, which is an input of the design where `k` is the top.
CUTS_OF_ALL_FORMS: Cuts = [
    # a directive is one token
    ("`timescale 10 us / 1 n", "line 1: 3 Unsupported"),
    ("s\n", "line 1: 6 NoTop"),
    ("module k(input a); bu", "line 2: 2 Syntax"),
    ("f ", "line 2: 11 ZeroDelay"),
    ("#1 (a, 1'b1); en", "line 2: 2 Syntax"),
    ("d", "line 2: 3 Unsupported"),
    ("modul", "line 2: 2 Syntax"),
    ("e\n", "line 2: 11 DrivenInput"),
    ("module l; en", "line 3: 2 Syntax"),
    ("d", "line 3: 3 Unsupported"),
    ("modul", "line 3: 2 Syntax"),
    ("e\n", "line 3: 7 ManyTops"),
    # an attribute does not end with the byte that begins it
    ("module \\m+ (input [15:10] v, output (*) strong\n *", "line 4: 2 Syntax"),
    (") y);", "line 5: 2 Syntax"),
    # the name of the vector, then that of one of its bits
    ("\n wire \\", "line 6: 2 Syntax"),
    ("v", "line 6: 8 WidthMismatch"),
    ("[12", "line 6: 2 Syntax"),
    ("]", "line 6: 11 DuplicateName"),
    ("b , re", "line 6: 2 Syntax"),
    ("g", "line 6: 3 Unsupported"),
    ("ular;", "line 6: 2 Syntax"),
    ("\n bu", "line 7: 2 Syntax"),
    ("f", "line 7: 11 ZeroDelay"),
    ("if", "line 7: 2 Syntax"),
    ("1 ", "line 7: 11 ZeroDelay"),
    ("#", "line 7: 2 Syntax"),
    ("0", "line 7: 11 ZeroDelay"),
    ("5 (re", "line 7: 2 Syntax"),
    ("g", "line 7: 3 Unsupported"),
    ("ular, ", "line 7: 2 Syntax"),
    # the vector without an index, and an index outside of its range
    ("v", "line 7: 8 WidthMismatch"),
    ("[", "line 7: 2 Syntax"),
    ("1", "line 7: 8 WidthMismatch"),
    ("2], 1'b1);", "line 7: 2 Syntax"),
    # a comment that does not end is a fault at its beginning
    ("\n ", "line 8: 2 Syntax"),
    ("/", "line 8: 3 Unsupported"),
    ("* of\n two *", "line 8: 2 Syntax"),
    ("/ h \\$en", "line 9: 2 Syntax"),
    ("d", "line 9: 11 BadName"),
    ("2 (v, y), u2(.q(y)); k w(); l x();", "line 9: 2 Syntax"),
    ("\nen", "line 10: 2 Syntax"),
    ("d", "line 10: 3 Unsupported"),
    ("modul", "line 10: 2 Syntax"),
    # the module of the first instance is missing
    ("e ", "line 9: 4 UnknownModule"),
    ("/", "line 10: 3 Unsupported"),
    ("/ the top\n", "line 9: 4 UnknownModule"),
    ("`timescale 10us/1p", "line 11: 3 Unsupported"),
    ("s\n", "line 9: 4 UnknownModule"),
    ("module h(p, q);", "line 12: 2 Syntax"),
    ("\n output q; input [0:5] p;", "line 13: 2 Syntax"),
    ("\n nan", "line 14: 2 Syntax"),
    ("d ", "line 14: 11 ZeroDelay"),
    ("#(", "line 14: 2 Syntax"),
    ("0_", "line 14: 11 ZeroDelay"),
    ("5,3) g(q, ", "line 14: 2 Syntax"),
    ("p", "line 14: 8 WidthMismatch"),
    ("[0], ", "line 14: 2 Syntax"),
    ("p", "line 14: 8 WidthMismatch"),
    ("[5]), (q, ", "line 14: 2 Syntax"),
    ("p", "line 14: 8 WidthMismatch"),
    ("[3], 1'bZ);", "line 14: 2 Syntax"),
    ("\nen", "line 15: 2 Syntax"),
    ("d", "line 15: 3 Unsupported"),
    ("modul", "line 15: 2 Syntax"),
    (
        "e\n",
        "m+: <v[15]:wire <v[14]:wire <v[13]:wire <v[12]:wire <v[11]:wire <v[10]:wire y:wire v[12]b:wire regular:wire "
        "u2.p[0]:wire u2.p[1]:wire u2.p[2]:wire u2.p[3]:wire u2.p[4]:wire u2.p[5]:wire w.a:wire"
        " / $1 bufif1 5 5 regular v[12] 1'b1 / $end2.g nand 5 3 y v[15] v[10] / $end2.$1 nand 5 3 y v[12] 1'bz"
        " / u2.g nand 5 3 y u2.p[0] u2.p[5] / u2.$1 nand 5 3 y u2.p[3] 1'bz / w.$1 buf 1 1 w.a 1'b1",
    ),
]


class CutTexts(WithTexts):
    def check_cuts(self, whole: str, cuts: Cuts, *words: str) -> None:
        """Each beginning of the text is read in this way."""
        self.assertEqual("".join(piece for piece, _ in cuts), whole)
        before = ""
        for piece, want in cuts:
            for end in range(1, len(piece) + 1):
                self.check(before + piece[:end], want, *words)
            before += piece

    def test_netlists(self) -> None:
        self.check_cuts(ONE_MODULE, CUTS_OF_ONE_MODULE, "--delay=2")
        self.check_cuts(TWO_MODULES, CUTS_OF_TWO_MODULES, "--delay=2")

    def test_all_forms(self) -> None:
        self.check_cuts(ALL_FORMS, CUTS_OF_ALL_FORMS)


if __name__ == "__main__":
    unittest.main()
