"""Modules and their items, token by token: each fault with its line."""
import unittest

from .reading import Rows, WithTexts

ITEMS: Rows = [
    ("a comment that does not end", "module m(a);\ninput a;\n/* cut", "line 3: 2 Syntax"),
    ("a delay of 0", "module m(y);\noutput y;\nnot #0 g(y,1'b1);\nendmodule", "line 3: 11 ZeroDelay"),
    ("a third delay of an and, on one line", "module m(y);\noutput y;\nand #(1,2,3) g(y,y);\nendmodule", "line 3: 2 Syntax"),
    # A third number, at the comma before it and at it.
    ("a third delay of an and", "module m; and #(1,2\n,3", "line 2: 2 Syntax"),
    ("a third delay of a nand", "module m; nand #(1,2\n,3", "line 2: 2 Syntax"),
    ("a third delay of an or", "module m; or #(1,2\n,3", "line 2: 2 Syntax"),
    ("a third delay of a nor", "module m; nor #(1,2\n,3", "line 2: 2 Syntax"),
    ("a third delay of an xor", "module m; xor #(1,2\n,3", "line 2: 2 Syntax"),
    ("a third delay of an xnor", "module m; xnor #(1,2\n,3", "line 2: 2 Syntax"),
    ("a third delay of a buf", "module m; buf #(1,2\n,3", "line 2: 2 Syntax"),
    ("a third delay of a not", "module m; not #(1,2\n,3", "line 2: 2 Syntax"),
    ("a second delay of 0 before a third", "module m; and #(1,\n0,3)", "line 2: 11 ZeroDelay"),
    ("the comma before a third delay of 0", "module m; and #(1,2,\n0)", "line 1: 2 Syntax"),
    ("a turn-off delay of 0", "module m; bufif1 #(1,2,\n0)", "line 2: 11 ZeroDelay"),
    ("a turn-off delay over the limit", "module m; bufif0 #(1,2,\n1000001)", "line 2: 11 DelayTooLarge"),
    ("no number behind the second comma", "module m; notif1 #(1,2,\n)", "line 2: 2 Syntax"),
    ("a fourth delay", "module m; notif0 #(1,2,3\n,4)", "line 2: 2 Syntax"),
    ("no parenthesis behind the turn-off delay", "module m; bufif1 #(1,2,3\n;", "line 2: 2 Syntax"),
    ("a word of Verilog as the turn-off delay", "module m; bufif1 #(1,2,\nalways", "line 2: 3 Unsupported"),
    ("the text ends behind the turn-off delay", "module m; bufif1 #(1,2,3", "line 1: 2 Syntax"),
    ("a number sign behind the delays", "module m; bufif1 #(1,2,3\n) #", "line 2: 2 Syntax"),
    ("a comma behind a delay without parentheses", "module m; bufif1 #1,\n2", "line 1: 2 Syntax"),
    ("a comma before the first delay", "module m; bufif1 #(,\n2,3)", "line 1: 2 Syntax"),
    ("the text ends in a module", "module m;\n\n", "line 3: 2 Syntax"),
    ("a word of Verilog in place of an item", "module m; always", "line 1: 3 Unsupported"),
    # A name's faults, in order.
    ("a bad name where no name can stand", "module m; wire a \\a.b ;", "line 1: 2 Syntax"),
    ("a bad name in a direction without a header", "module m; input \\a.b ;", "line 1: 2 Syntax"),
    ("a name with a dot", "module m; wire \\a.b ;", "line 1: 11 BadName"),
    ("the name $end", "module m; wire \\$end ;", "line 1: 11 BadName"),
    # Ports and declarations.
    ("a port twice in a header", "module m(a,\na);", "line 2: 11 DuplicateName"),
    ("a port without a direction", "module m(a);\nendmodule", "line 2: 2 Syntax"),
    ("the text ends behind a direction", "module m; input", "line 1: 2 Syntax"),
    ("a direction of what no header has", "module m;\ninput\na;", "line 3: 2 Syntax"),
    ("a direction behind a header of directions", "module m(input a);\ninput", "line 2: 2 Syntax"),
    ("two directions", "module m(a); input a;\ninput a;", "line 2: 11 DuplicateName"),
    ("two net declarations", "module m; wire a;\nwand a;", "line 2: 11 DuplicateName"),
    ("a net kind in the header, and a net declaration", "module m(input wire a);\nwire a;", "line 2: 11 DuplicateName"),
    ("a net declaration, and a direction with a net kind", "module m(a); wire a;\ninput wire a;", "line 2: 11 DuplicateName"),
    ("a use before its net declaration", "module m; buf #1 (a,b);\nwire a;", "line 2: 11 DuplicateName"),
    ("a use before its direction", "module m(a); buf #1 (a,b);\ninput a;", "line 2: 11 DuplicateName"),
    # Gates.
    ("a delay over the limit", "module m; not #1000001", "line 1: 11 DelayTooLarge"),
    ("a second delay of 0", "module m; not #(1,\n0", "line 2: 11 ZeroDelay"),
    ("a gate word without a delay, before a byte", "module m; not\n@", "line 1: 11 ZeroDelay"),
    ("a byte behind a delay", "module m; not #1\n@", "line 2: 3 Unsupported"),
    ("one terminal of a buf", "module m; buf #1 g(1'b0\n)", "line 2: 11 WrongArity"),
    ("one terminal of an and", "module m; and #1 g(y\n)", "line 2: 11 WrongArity"),
    ("a constant as the output of a not", "module m; not #1 g(1'b0,a\n)", "line 2: 9 PortKind"),
    ("a constant as a second output", "module m; not #1 g(y,1'b0,a\n)", "line 2: 9 PortKind"),
    ("no terminal", "module m; and #1 g(\n)", "line 2: 2 Syntax"),
    ("two gates of one name", "module m; buf #1 g(y,a),\ng(z,a);", "line 2: 11 DuplicateName"),
    ("a made name before a gate of this name", "module m; buf #1 g(y,z,a);\nnot #1 g$1(w,a);", "line 2: 11 DuplicateName"),
    ("a gate before a made name of this name", "module m; not #1 g$1(w,a); buf #1 g(y,z,a\n);", "line 2: 11 DuplicateName"),
    ("a gate before a made name of an unnamed one", "module m; not #1 \\$1 (w,a); buf #1 (y,a\n);", "line 2: 11 DuplicateName"),
    ("a gate of the name of one with two outputs", "module m; buf #1 g(y,z,a);\nnot #1 g(w,a);", "line 2: 11 DuplicateName"),
    # Words that can't stand.
    ("a net kind as a module's name", "module\nwire;", "line 2: 2 Syntax"),
    ("a word of Verilog as a module's name", "module\nalways;", "line 2: 3 Unsupported"),
    ("the word module as a module's name", "module\nmodule", "line 2: 2 Syntax"),
    ("a name behind a module", "module m; endmodule\nu", "line 2: 2 Syntax"),
    ("a second endmodule", "module m; endmodule\nendmodule", "line 2: 2 Syntax"),
    ("a module in a module", "module m;\nmodule n;", "line 2: 2 Syntax"),
    ("a range behind a name", "module m; wire a\n[3:0];", "line 2: 2 Syntax"),
    ("a delay with a point", "module m; buf #1.5", "line 1: 2 Syntax"),
    ("a constant of two bits", "module m; buf #1 g(y,\n2'b0);", "line 2: 2 Syntax"),
    ("a backslash before a blank", "module m; wire\n\\ a;", "line 2: 2 Syntax"),
    ("a quotation mark", 'module m; wire a\n"', "line 2: 3 Unsupported"),
    ("a delay behind a comma of instances", "module m; buf #3 (a,b), #(1)", "line 1: 2 Syntax"),
]

DIRECTIVES: Rows = [
    ("in a module", "`timescale 1ns/1ps\nmodule m;\n`timescale 1ns/1ps", "line 3: 2 Syntax"),
    ("in a module, with another unit", "`timescale 1ns/1ps\nmodule m;\n`timescale 10ns/1ps", "line 3: 3 Unsupported"),
    ("in a module, the first of the text", "module m;\n`timescale 1ns/1ps", "line 2: 2 Syntax"),
    ("of a unit of 2 ns", "\n`timescale 2ns/1ps", "line 2: 3 Unsupported"),
]

WORDS: Rows = [
    ("a word that is cut short", "module m; endmodul", "line 1: 2 Syntax"),
    ("no blank behind the word module", "modulem; endmodule", "line 1: 2 Syntax"),
    ("a number as a module's name", "module 1; endmodule", "line 1: 2 Syntax"),
    ("a net kind as a module's name", "module wire; endmodule", "line 1: 2 Syntax"),
    ("no semicolon behind a module's name", "module m endmodule", "line 1: 2 Syntax"),
    ("a name behind the module", "module m; endmodule x", "line 1: 2 Syntax"),
    ("a vertical tab", "module m;\x0bendmodule", "line 1: 1 Text"),
    ("a minus", "module m-n; endmodule", "line 1: 3 Unsupported"),
    ("a module in itself", "module m;\nm u();\nendmodule", "line 1: 5 Recursive"),
    (
        "a gate without a delay",
        "module m (a,b,y);\n input a,b;\n output y;\n nand NAND2_1 (t, a, b);\n not (y, t);\nendmodule",
        "line 4: 11 ZeroDelay",
    ),
    ("a driven input", "// a gate drives an input\nmodule m(input a);\nnot #1 (a, b);\nendmodule", "line 2: 11 DrivenInput"),
]


class Items(WithTexts):
    def test_items(self) -> None:
        self.check_rows(ITEMS)

    def test_directives(self) -> None:
        self.check_rows(DIRECTIVES)

    def test_words_of_modules(self) -> None:
        self.check_rows(WORDS)


if __name__ == "__main__":
    unittest.main()
