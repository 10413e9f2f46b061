"""Texts that are cut after each byte."""
from case import Case

TEXTS = (
    # Modules within modules.
    (
        b"""// A half adder, twice.
module half(input a, input b, output s, output c);
  xor #2 x1(s, a, b);
  and #(1, 3) (c, a, b);
endmodule
module full(a, b, ci, s, co);
  input a, b, ci;
  output s, co;
  half h1(a, b, t, u), h2(.a(t), .b(ci), .s(s), .c(v));
  or #1 (co, u, v);
endmodule
""",
        ("--horizon", "20"),
    ),
    # Gates without a delay of their own, and without a name.
    (
        b"""module two(input a, output y, z);
  wire n;
  not (n, a);
  buf g(y, z, n);
endmodule
""",
        ("--horizon", "20", "--delay", "2"),
    ),
    # All of the words and marks of a text.
    (
        b"""`timescale 10 ns / 1ps
(* top = "yes" *) module \\top+ (d, en, q, \\w[0] );
  input [1:0] d; input en;
  output tri [0:1] q; wor \\w[0] ;  /* a scalar */
  bufif1 #(3,4) b0(q[0], d[1], en), \\b1 (q[1], d[0], 1'b1);
  leaf l(.p(d), .o(\\w[0] ), .n());
endmodule
module leaf(input [3:2] p, output tri o, input n);
  xnor #5 (o, p[2], 1'Bx, n);
endmodule
""",
        ("--horizon", "20"),
    ),
)


def cases():
    """Each text cut after each byte, and whole."""
    for text, words in TEXTS:
        for length in range(len(text) + 1):
            yield Case(text[:length], words, b"vcd\n")
