"""Instances of modules, token by token: names that are taken, and words that can't stand."""
import unittest

from .reading import Rows, WithTexts

TAKEN: Rows = [
    ("two modules", "module m; endmodule module\nm;", "line 2: 11 DuplicateName"),
    ("two modules, one of an escaped name", "module m; endmodule module n; endmodule module\n\\m ;", "line 2: 11 DuplicateName"),
    ("two instances", "module m; h u();\nh u();", "line 2: 11 DuplicateName"),
    ("two instances of one item", "module m; h u(),\nu();", "line 2: 11 DuplicateName"),
    # Gates and instances share their names.
    ("a gate and then an instance", "module m; not #1 u(a,b);\nh u();", "line 2: 11 DuplicateName"),
    ("an instance and then a gate", "module m; h u();\nnot #1 u(a,b);", "line 2: 11 DuplicateName"),
    ("an instance and then a made name of a gate", "module m; h g$1(); buf #1 g(y,z,a\n);", "line 2: 11 DuplicateName"),
    ("a made name of a gate and then an instance", "module m; buf #1 g(y,z,a);\nh g$1();", "line 2: 11 DuplicateName"),
    ("an unnamed gate and then an instance", "module m; not #1 (y,a);\nh \\$1 ();", "line 2: 11 DuplicateName"),
    ("an instance and then an unnamed gate", "module m; h \\$1 (); not #1 (y,a\n);", "line 2: 11 DuplicateName"),
    # A gate instance of several outputs, an unnamed one too, takes its own name with those that are made of it.
    ("a gate of two outputs and then an instance", "module m; buf #1 g(y,z,a);\nh g();", "line 2: 11 DuplicateName"),
    ("an unnamed gate of two outputs and then an instance", "module m; buf #1 (y,z,a);\nh \\$1 ();", "line 2: 11 DuplicateName"),
    (
        "a made name of an unnamed gate and then an instance",
        "module m; buf #1 (y,z,a);\nh \\$1$2 ();",
        "line 2: 11 DuplicateName",
    ),
    # A use in a connection comes before the declaration.
    ("a use in a connection and then a net declaration", "module m; h u(a);\nwire a;", "line 2: 11 DuplicateName"),
    ("a use in a connection by name and then a direction", "module m(a); h u(.p(a));\ninput a;", "line 2: 11 DuplicateName"),
]

FAULTS: Rows = [
    # Between the words of an instance.
    ("no name", "module m; h\n();", "line 2: 2 Syntax"),
    ("a delay", "module m; h\n#1 u();", "line 2: 2 Syntax"),
    ("a net kind as the name", "module m; h\nwire();", "line 2: 2 Syntax"),
    ("a word of Verilog as the name", "module m; h\nalways();", "line 2: 3 Unsupported"),
    ("no parenthesis behind the name", "module m; h u\n;", "line 2: 2 Syntax"),
    ("no comma between instances", "module m; h u()\nv();", "line 2: 2 Syntax"),
    ("no name behind a comma", "module m; h u(),\n();", "line 2: 2 Syntax"),
    ("a semicolon behind a comma", "module m; h u(),\n;", "line 2: 2 Syntax"),
    ("the text ends behind an instance", "module m; h u()\n", "line 2: 2 Syntax"),
    # Connections.
    ("no comma between connections", "module m; h u(a\nb);", "line 2: 2 Syntax"),
    ("no closing parenthesis", "module m; h u(a\n;", "line 2: 2 Syntax"),
    ("nothing behind the opening parenthesis", "module m; h u(\n;", "line 2: 2 Syntax"),
    ("nothing behind a comma of connections", "module m; h u(a,\n;", "line 2: 2 Syntax"),
    ("a constant of two bits", "module m; h u(\n2'b0);", "line 2: 2 Syntax"),
    ("an index without a name", "module m; h u(\n[0]);", "line 2: 2 Syntax"),
    ("a net kind in place of a connection", "module m; h u(\nwire);", "line 2: 2 Syntax"),
    ("a word of Verilog in place of a connection", "module m; h u(\nalways);", "line 2: 3 Unsupported"),
    ("the text ends in the connections", "module m; h u(\n", "line 2: 2 Syntax"),
    # By order and by name do not go together.
    ("a connection by order behind one by name", "module m; h u(.p(a),\nb);", "line 2: 2 Syntax"),
    ("a connection by name behind one by order", "module m; h u(a,\n.p(b));", "line 2: 2 Syntax"),
    ("a connection by name behind an empty place", "module m; h u(,\n.p(b));", "line 2: 2 Syntax"),
    # By name there are no empty places.
    ("an empty place behind a connection by name", "module m; h u(.p(a),\n);", "line 2: 2 Syntax"),
    ("an empty place between connections by name", "module m; h u(.p(a),\n,.q(b));", "line 2: 2 Syntax"),
    ("no name behind the dot", "module m; h u(.\n(a));", "line 2: 2 Syntax"),
    ("a constant behind the dot", "module m; h u(.\n1'b0);", "line 2: 2 Syntax"),
    ("no parenthesis behind the port", "module m; h u(.p\na);", "line 2: 2 Syntax"),
    ("two nets at one port", "module m; h u(.p(a\n,b));", "line 2: 2 Syntax"),
    ("no comma between connections by name", "module m; h u(.p(a)\n.q(b));", "line 2: 2 Syntax"),
    # Names that no design may have.
    ("a bad name of a module", "module m;\n\\a.b u();", "line 2: 11 BadName"),
    ("a bad name of an instance", "module m; h\n\\$end ();", "line 2: 11 BadName"),
    ("a bad name of a net", "module m; h u(\n\\a'b );", "line 2: 11 BadName"),
    ("a bad name of a port", "module m; h u(.\n\\p.q ());", "line 2: 11 BadName"),
    ("a bad name of a net at a port", "module m; h u(.p(\n\\$end ));", "line 2: 11 BadName"),
    # Where no name can stand, it is not looked at.
    ("a bad name behind the name of an instance", "module m; h u\n\\a.b ();", "line 2: 2 Syntax"),
    ("a bad name behind a connection", "module m; h u(a\n\\a.b );", "line 2: 2 Syntax"),
    ("a bad name of a second module", "module m; endmodule module\n\\m.n ;", "line 2: 11 BadName"),
    # What a module before has does not help the next one.
    ("a direction of a port that another module has", "module m(a); input a; endmodule module n;\ninput\na;", "line 3: 2 Syntax"),
]


class Instances(WithTexts):
    def test_names_that_are_taken(self) -> None:
        self.check_rows(TAKEN)

    def test_words_and_names_that_can_not_stand(self) -> None:
        self.check_rows(FAULTS)


if __name__ == "__main__":
    unittest.main()
