"""What a session says of its nets and gates, and of a part of a wave. The answers are worked out by hand."""
import os

from gatebench import Change, Gate, ProgramEnded, QuestionMissing, Refused, Session
from gatebench.netlist import netlist_of
from gatebench.netlist_edits import edited_in
from gatebench.program import program_path, tool_path

from .support import WithFolder

TEXT = """
module m(input a, b, input tri0 k, output y, z);
  nand #(2,3) g(y, a, b);
  bufif1 #(1,2,4) t(z, y, 1'b1);
  and #1 (z, a, a);
endmodule
"""
G = Gate("g", "nand", 2, 3, None, "y", ("a", "b"))
T = Gate("t", "bufif1", 1, 2, 4, "z", ("y", "1'b1"))
UNNAMED = Gate("$1", "and", 1, 1, None, "z", ("a", "a"))
# b is 1, and 0 from 10 on: y is x, 0 from 3 on and 1 from 12 on.
STIMULUS = ["stim a 0 1", "stim b 10 0", "stim b 0 1", "stim b 60 1"]


class Structures(WithFolder):
    def setUp(self) -> None:
        super().setUp()
        self.session = Session(text=TEXT, horizon=40)
        self.addCleanup(self.session.kill)
        self.session.edits(STIMULUS)

    def test_nets_and_inputs_in_their_order(self) -> None:
        self.assertEqual(self.session.nets(), ["a", "b", "k", "y", "z"])
        self.assertEqual(self.session.inputs(), ["a", "b", "k"])
        self.assertEqual(self.session.kinds(), {"a": "wire", "b": "wire", "k": "tri0", "y": "wire", "z": "wire"})

    def test_gates_are_those_that_the_text_has(self) -> None:
        self.assertEqual(self.session.gates(), [G, T, UNNAMED])
        self.assertEqual(self.session.gates(), netlist_of(TEXT).gates)
        self.assertEqual(self.session.gate_named("t"), T)

    def test_who_drives_a_net_and_who_reads_it(self) -> None:
        session = self.session
        self.assertEqual((session.drivers("z"), session.drivers("a")), ([T, UNNAMED], []))
        self.assertEqual((session.readers("a"), session.readers("z")), ([G, UNNAMED], []))

    def test_points_of_an_input(self) -> None:
        self.assertEqual(self.session.points("b"), [Change(0, "1"), Change(10, "0"), Change(60, "1")])
        self.assertEqual(self.session.points("k"), [])

    def test_the_present_version_and_held_ones(self) -> None:
        held = self.session.hold("before")
        self.session.edits(["drop t", "delay g 5 6", "unstim b 10", "input c"])
        self.assertEqual(self.session.gates(), [G._replace(rise=5, fall=6), UNNAMED])
        self.assertEqual((self.session.readers("y"), self.session.points("b")[1]), ([], Change(60, "1")))
        self.assertEqual(self.session.inputs()[-1], "c")
        self.assertEqual((held.gates(), held.readers("y"), held.points("b")[1]), ([G, T, UNNAMED], [T], Change(10, "0")))
        self.assertEqual((held.inputs(), held.gate_named("g")), (["a", "b", "k"], G))

    def test_a_part_of_a_wave(self) -> None:
        for session in (self.session, self.session.hold("held"), self.plain()):
            for start, end, wanted in (
                (0, 40, [(0, "x"), (3, "0"), (12, "1")]),
                (2, 11, [(2, "x"), (3, "0")]),
                (3, 12, [(3, "0"), (12, "1")]),
                (40, 40, [(40, "1")]),
            ):
                self.assertEqual(session.window("y", start, end), tuple(Change(*it) for it in wanted), (session, start, end))
            with self.assertRaises(Refused) as caught:
                session.window("y", 0, 41)
            self.assertEqual(caught.exception.name, "TimeTooLarge")
            with self.assertRaises(ValueError):
                session.window("y", 5, 4)

    def test_what_is_not_there_is_refused(self) -> None:
        session = self.session
        for ask, name in (
            (lambda: session.drivers("q"), "UnknownNet"),
            (lambda: session.readers("q"), "UnknownNet"),
            (lambda: session.window("q", 0, 1), "UnknownNet"),
            (lambda: session.gate_named("q"), "UnknownGate"),
            (lambda: session.points("y"), "NotInput"),
            (lambda: session.at("never").gates(), "UnknownHold"),
        ):
            with self.assertRaises(Refused) as caught:
                ask()
            self.assertEqual(caught.exception.name, name)

    def plain(self) -> Session:
        """The same by a program that does not know the questions."""
        session = Session(text=TEXT, horizon=40, program=self.without_tools())
        self.addCleanup(session.kill)
        session.edits(STIMULUS)
        return session

    def test_a_program_that_does_not_know_the_questions(self) -> None:
        session = self.plain()
        self.assertEqual(session.nets(), self.session.nets())
        for ask in (session.kinds, session.inputs, session.gates, lambda: session.gate_named("g"), lambda: session.drivers("y"),
                    lambda: session.readers("a"), lambda: session.points("a"), session.hold("k").gates):  # fmt: skip
            with self.assertRaises(QuestionMissing) as caught:
                ask()
            self.assertIn("does not know the question nets", str(caught.exception))
        # Nothing of it was an edit, and a batch stays open.
        session.begin()
        session.nets()
        self.assertEqual(session.commit(), session.ask(["value y 0"])[0].version(""))

    def test_of_a_script_the_file_beside_it_is_started(self) -> None:
        script = self.write("gatebench", "#!/bin/sh\nexit 9\n")
        os.chmod(script, 0o755)
        with self.assertRaises(ProgramEnded):
            Session(text=TEXT, program=script)
        os.symlink(os.path.abspath(tool_path(program_path())), os.path.join(self.folder, "gatetool"))
        with Session(text=TEXT, program=script) as session:
            self.assertEqual(session.inputs(), ["a", "b", "k"])

    def test_it_is_asked_once_what_a_program_knows(self) -> None:
        lines = []
        self.session._known = None
        ask = self.session.ask
        self.session.ask = lambda given: lines.extend(given) or ask(given)  # type: ignore
        for _ in range(2):
            self.session.nets()
            self.session.window("y", 0, 1)
        self.assertEqual([it for it in lines if it == "drivers '"], ["drivers '"])

    def test_the_netlist_of_a_session_after_edits(self) -> None:
        edits = ["drop t", "gate n not 3 4 z y", "input c", "stim c 0 1", "dropnet k"]
        for session in (self.session, self.plain()):
            before = edited_in(session, TEXT, None, [], [])
            self.assertEqual((before.netlist.gates, before.netlist.outputs, before.driven), ([G, T, UNNAMED], ["y", "z"], set()))
            after = edited_in(session, TEXT, None, edits, session.ask(edits))
            self.assertEqual(after.netlist.gates, [G, UNNAMED, Gate("n", "not", 3, 4, None, "z", ("y",))])
            self.assertEqual((after.netlist.inputs, after.driven), (["a", "b", "c"], {"c"}))

    def test_gates_of_a_text_that_is_not_read_here(self) -> None:
        unread = edited_in(self.session, "module m; assign y = a; endmodule", None, [], [])
        self.assertEqual((unread.netlist.gates, unread.netlist.outputs), ([G, T, UNNAMED], []))
        with self.assertRaises(ValueError):
            edited_in(self.plain(), "module m; assign y = a; endmodule", None, [], [])
