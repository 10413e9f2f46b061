"""The server behind the page of `python -m gatebench view`: what it answers. tools/view_tests tests the page."""
import importlib.util
import os
import re
import signal
import subprocess
import sys
import unittest
from typing import Any, Dict, List, Tuple
from unittest import mock

from gatebench.check import check_files
from gatebench.program import program_path
from gatebench.script import Opening, script_of
from gatebench.viewing.rules import KINDS
from gatebench.viewing.view import View

from .newer import AskedSession, NewerSession
from .support import INVERTER, ROOT, WithFolder

HAS_FLASK = importlib.util.find_spec("flask") is not None
# p falls 3 behind its inputs and rises 3 behind one, and y follows it by 1. No net drives w.
CHAIN = "module m(input a, b, output y, w);\n  nand #3 g(p, a, b);\n  buf #1 h(y, p);\n  or #1 k(w, 1'b0, 1'b1);\nendmodule\n"
COMMANDS = "stim a 0 0\nexpect y 2 1\nstim a 10 1\nnext y 2\nhold k\nfree k\n"
# The program is started by a shell that says its number; the first one is that of the session. It goes by the name of the link.
SAYING = "#!/bin/sh\necho $$ >> '{folder}/number'\nexec '{folder}/{link}' \"$@\"\n"


@unittest.skipUnless(HAS_FLASK, "the library flask is not there")
class Served(WithFolder):
    """A test with a design that is served, by a program that does not know the questions of tools."""

    program_name = "gatebench"

    def setUp(self) -> None:
        super().setUp()
        self.serve(INVERTER, COMMANDS)

    def serve(self, text: str, commands: str, horizon: int = 20) -> None:
        from gatebench.viewing.app import app_of

        self.design = self.write("m.v", text)
        link = os.path.join(self.folder, self.program_name)
        if not os.path.lexists(link):
            os.symlink(os.path.abspath(program_path()), link)
        program = self.write("program", SAYING.format(folder=self.folder, link=self.program_name))
        os.chmod(program, 0o755)
        steps = script_of(commands, self.folder).steps
        self.view = View(Opening(self.design, horizon), steps, program, 60)
        self.addCleanup(lambda: self.view.current.session.kill())
        self.client = app_of(self.view, "token").test_client()

    def answer(self, name: str, **body: Any) -> Tuple[int, Dict[str, Any]]:
        answer = self.client.post(f"/token/ask/{name}", json=body, base_url="http://127.0.0.1:8000")
        return answer.status_code, answer.get_json()

    def ask(self, name: str, **body: Any) -> Dict[str, Any]:
        status, said = self.answer(name, **body)
        self.assertEqual(status, 200, said)
        return said

    def rows(self, *rows: Any, end: int = 20, parts: int = 100, other: str = "before") -> Any:
        return self.ask("windows", rows=rows, start=0, end=end, parts=parts, other=other)["rows"]

    def now(self, net: str) -> Any:
        return self.rows([net])[0]["now"]


class Answers(Served):
    def test_only_who_has_the_token_and_the_address_is_served(self) -> None:
        for path, base, wanted in (
            ("/token/", "http://127.0.0.1:8000", 200),
            ("/token/page/main.js", "http://localhost:8000", 200),
            ("/other/", "http://127.0.0.1:8000", 404),
            ("/", "http://127.0.0.1:8000", 404),
            ("/token/page/../app.py", "http://127.0.0.1:8000", 404),
            ("/token/", "http://elsewhere.example:8000", 403),
        ):
            with self.client.get(path, base_url=base) as answer:
                self.assertEqual(answer.status_code, wanted, (path, base))

    def test_the_design(self) -> None:
        said = self.ask("design")
        self.assertEqual(said["rows"], [{"name": "a", "bits": ["a"]}, {"name": "y", "bits": ["y"]}])
        self.assertEqual((said["inputs"], said["unit"], said["state"]["horizon"]), (["a"], "1 ns", 20))

    def test_the_waves_of_a_window(self) -> None:
        a, y, missing = self.rows(["a"], ["y"], ["n"])
        self.assertEqual((a["now"], missing), ([[0, "0"], [10, "1"]], None))
        self.assertEqual(y["now"], [[0, "x"], [2, "1"], [13, "0"]])

    def test_a_drag_is_one_step_beside_the_version_before(self) -> None:
        self.assertEqual(self.ask("movable", bits=["a"], time=10), {"points": [["a", "1"]], "least": 1, "most": 20})
        for time in (11, 12):
            state = self.ask("edit", edits=["unstim a 10", f"stim a {time} 1"], drag="first")
        self.assertEqual(state["log"], ["unstim a 10; stim a 12 1"])
        [y] = self.rows(["y"])
        self.assertEqual((y["now"][-1], y["other"][-1], y["shades"]), ([15, "0"], [13, "0"], [[13, 15]]))
        changes = [(it["time"], it["net"], it["before"], it["after"]) for it in self.ask("changes")["changes"]]
        self.assertEqual(changes, [(10, "a", "1", "0"), (13, "y", "0", "1")])
        self.assertIsNone(self.ask("undo")["undo"])
        self.assertEqual(self.now("y")[-1], [13, "0"])

    def test_undo_and_redo(self) -> None:
        self.ask("edit", edits=["delay g 3 5"])
        self.ask("command", line="stim a 16 0")
        self.assertEqual(self.now("y"), [[0, "x"], [3, "1"], [15, "0"], [19, "1"]])
        self.assertEqual(self.ask("undo")["redo"], "stim a 16 0")
        self.assertEqual(self.ask("undo")["undo"], None)
        self.assertEqual(self.now("y"), [[0, "x"], [2, "1"], [13, "0"]])
        self.assertEqual(self.ask("redo")["undo"], "delay g 3 5")
        self.assertEqual(self.now("y"), [[0, "x"], [3, "1"], [15, "0"]])
        self.ask("undo")
        self.assertEqual(self.answer("undo"), (409, {"message": "there is nothing to undo"}))

    def test_another_page_sees_that_there_was_a_step(self) -> None:
        before = self.ask("status")["version"]
        self.assertEqual(self.ask("status")["version"], before)
        state = self.ask("edit", edits=["delay g 3 5"])
        self.assertEqual(self.ask("status")["version"], state["version"])
        self.assertNotEqual(state["version"], before)

    def test_each_edit_is_undone(self) -> None:
        for line in ("gate h buf 1 1 y a", "drop g", "type g buf", "wire g y y", "net n wire", "input i", "horizon 15", "unstim a 10"):
            self.ask("command", line=line)
            self.ask("undo")
            self.assertEqual(self.rows(["a"], ["y"])[1]["now"], [[0, "x"], [2, "1"], [13, "0"]], line)
            self.assertEqual([it["name"] for it in self.ask("design")["rows"]], ["a", "y"], line)

    def test_a_refused_edit_changes_nothing(self) -> None:
        self.ask("edit", edits=["delay g 5 6"], drag="d")
        before = self.ask("design")
        for drag in ("d", None):
            status, said = self.answer("edit", edits=["stim a 12 0", "stim y 3 1"], drag=drag)
            self.assertEqual((status, said["code"], said["name"], said["command"], said["place"] % 2), (409, 9, "NotInput", "stim y 3 1", 0 if drag else 1))
            self.assertIn("only inputs have stimulus points", said["message"])
            self.assertEqual(self.ask("design"), before)
        self.assertEqual(self.answer("command", line="commit")[0], 409)

    def rule(self, kind: str, words: str, *bits: str) -> Any:
        """What breaks the rules once this one is added for a row: moments and nets."""
        return [(it["time"], it["nets"]) for it in self.ask("rule", kind=kind, bits=bits, words=words)["broken"]]

    def drop_rules(self) -> None:
        for it in self.ask("design")["state"]["rules"]:
            self.ask("drop_rule", place=0, said=it["said"])

    def test_a_rule_of_pulses(self) -> None:
        self.ask("command", line="stim a 14 0")
        self.assertEqual(self.rule("no-pulse", "4", "y"), [(13, ["y"])])
        # A net has one of them.
        self.assertEqual(self.rule("no-pulse", "3", "y"), [])
        self.assertEqual(self.ask("design")["state"]["rules"], [{"net": "y", "said": "no pulse under 3"}])

    def test_rules_of_each_kind_are_seen_anew_at_each_step(self) -> None:
        # a is 0, and 1 from 10 on; y is x, 1 from 2 on and 0 from 13 on.
        for kind, words, before, after in (
            ("stable", "3 12", [], [(11, ["y"])]),
            ("stable", "13 99", [], []),
            ("setup-hold", "a 2 3", [], [(11, ["y"])]),
            ("setup-hold", "a 2 4", [(13, ["y"])], [(11, ["y"])]),
            ("setup-hold", "a 2 4 fall", [], []),
            ("one-hot", "a", [(0, ["y", "a"]), (10, ["y", "a"])], [(0, ["y", "a"]), (10, ["y", "a"])]),
            ("equal", "a 9 10 12", [(9, ["y", "a"])], [(9, ["y", "a"]), (12, ["y", "a"])]),
            ("equal", "a every 10", [(9, ["y", "a"]), (19, ["y", "a"])], [(9, ["y", "a"]), (19, ["y", "a"])]),
        ):
            with self.subTest(f"{kind} {words}"):
                self.assertEqual(self.rule(kind, words, "y"), before)
                self.ask("command", line="delay g 2 1")
                state = self.ask("design")["state"]
                self.assertEqual([(it["time"], it["nets"]) for it in state["broken"]], after)
                self.assertEqual(state["broken_count"], len(after))
                self.ask("undo")
                self.drop_rules()

    def test_a_rule_that_says_nothing_is_refused_with_what_it_takes(self) -> None:
        for kind, words, said in (
            ("no-pulse", "", "this rule takes a number of time units, such as 5"),
            ("no-pulse", "five", "this rule takes a number of time units, such as 5"),
            ("stable", "10", "this rule takes two moments, such as 10 20"),
            ("setup-hold", "b 1 1", "no row is named b"),
            ("setup-hold", "a 1", "this rule takes a clock and two numbers of time units, such as clk 3 1, and fall for its falling edges"),
            ("one-hot", "", "this rule takes the names of the other nets, such as b c"),
            ("equal", "a", "this rule takes another row and moments, such as w 19 39 or w every 20"),
            ("equal", "a every 0", "this rule takes another row and moments, such as w 19 39 or w every 20"),
        ):
            self.assertEqual(self.answer("rule", kind=kind, bits=["y"], words=words), (409, {"message": said}))
        self.assertEqual(self.ask("design")["state"]["rules"], [])

    def test_the_rules_of_the_page_are_those_of_the_server(self) -> None:
        with open(os.path.join(ROOT, "python", "gatebench", "viewing", "page", "rules.js"), encoding="utf-8") as page:
            self.assertEqual(re.findall(r'^  \["([\w-]+)", ', page.read(), re.M), list(KINDS))

    def test_a_rule_of_a_net_that_has_gone_is_passed_over(self) -> None:
        self.ask("command", line="input n")
        self.assertEqual(self.rule("one-hot", "a", "n")[:1], [(0, ["n", "a"])])
        self.ask("undo")
        self.assertEqual(self.ask("design")["state"]["broken"], [])

    def test_a_vector_has_its_rules_bit_by_bit(self) -> None:
        self.serve("module m(input [1:0] a, output [1:0] y);\n  buf #1 g1(y[1], a[1]), g0(y[0], a[0]);\nendmodule\n",
                   "stim a[1] 0 0\nstim a[0] 0 0\nstim a[1] 5 1\nstim a[1] 6 0\n")  # fmt: skip
        self.assertEqual(self.rule("no-pulse", "2", "y[1]", "y[0]"), [(6, ["y[1]"])])
        self.assertEqual(self.rule("equal", "a 4 6", "y[1]", "y[0]"), [(6, ["y[1]"]), (6, ["y[1]", "a[1]"])])
        self.assertEqual(self.answer("rule", kind="equal", bits=["y[1]"], words="a 4"), (409, {"message": "a has 2 nets, and not 1"}))

    def test_held_versions(self) -> None:
        self.assertEqual(self.ask("command", line="hold first")["state"]["held"], ["first"])
        self.ask("edit", edits=["delay g 5 6"])
        self.assertEqual(self.rows(["y"], other="first")[0]["other"], [[0, "x"], [2, "1"], [13, "0"]])
        self.assertEqual(self.ask("command", line="free first")["state"]["held"], [])

    def ways(self, *bits: str, time: int) -> Tuple[List[str], str, List[str]]:
        """The way back from an edge, what ends it, and what it led to."""
        said = self.ask("origins", bits=bits, time=time)
        way = [f"{it['time']} {it['net']} {it['value']} by {it['gate']}{'' if it['followed'] else ' too'}" for it in said["way"]]
        return way, said["end"], [f"{it['time']} {it['net']} {it['value']} by {it['gate']}" for it in said["effects"]["changes"]]

    def test_what_made_an_edge_and_what_it_led_to(self) -> None:
        self.assertEqual(self.ways("y", time=13), (["10 a 1 by g"], "stimulus", []))
        self.assertEqual(self.ways("a", time=10), ([], "stimulus", ["13 y 0 by g"]))
        self.assertEqual(self.ways("y", time=0), ([], "beginning", []))
        self.assertEqual(self.ask("origins", bits=["a", "y"], time=12), {"net": None})
        # Of the nets of a row it is the first one that changes then.
        self.assertEqual(self.ask("origins", bits=["a", "y"], time=13)["net"], "y")

    def test_a_change_that_led_to_many(self) -> None:
        self.serve("module m(input a, output [3:0] y); buf #1 g3(y[3], a), g2(y[2], a), g1(y[1], a), g0(y[0], a); endmodule", "stim a 0 1\n")
        with mock.patch("gatebench.viewing.answers.SHOWN", 3):
            effects = self.ask("origins", bits=["a"], time=0)["effects"]
        self.assertEqual((effects["count"], [it["net"] for it in effects["changes"]]), (4, ["y[3]", "y[2]", "y[1]"]))

    def test_the_way_back_goes_on_to_the_stimulus(self) -> None:
        self.serve(CHAIN, "stim a 0 1\nstim b 0 1\nstim a 10 0\n", 30)
        # y follows p, which follows a and b.
        self.assertEqual(self.ways("y", time=14), (["13 p 1 by h", "10 a 0 by g"], "stimulus", []))
        self.assertEqual(self.ways("y", time=4), (["3 p 0 by h", "0 a 1 by g", "0 b 1 by g too"], "stimulus", []))
        self.assertEqual(self.ways("a", time=10), ([], "stimulus", ["13 p 1 by g"]))
        self.assertEqual(self.ways("w", time=1), ([], "constants", []))
        # It is what it is in the present version.
        self.ask("edit", edits=["delay g 5 3", "stim b 12 0"])
        self.assertEqual(self.ways("y", time=16), (["15 p 1 by h", "10 a 0 by g"], "stimulus", []))

    def test_a_long_way_back_is_cut(self) -> None:
        self.serve("module m(input a, output y); nor #1 g(y, a, y); endmodule", "stim a 0 1\nstim a 5 0\n", 600)
        with mock.patch("gatebench.viewing.ways.MOST", 3):
            self.assertEqual(self.ways("y", time=600)[:2], ([f"{time} y {time % 2 ^ 1} by g" for time in (599, 598, 597)], ""))
        with mock.patch("gatebench.viewing.ways.PATIENCE", -1):
            self.assertEqual(len(self.ways("y", time=600)[0]), 1)
        with mock.patch("gatebench.viewing.ways.PATIENCE", 60):
            way, end, effects = self.ways("y", time=400)
        self.assertEqual((way[-1], end, effects), ("5 a 0 by g", "stimulus", ["401 y 0 by g"]))

    def test_edges_of_a_row(self) -> None:
        self.assertEqual([self.ask("edge", bits=["y"], time=at, step=step)["time"] for at, step in ((2, 1), (13, 1), (13, -1))], [13, None, 2])

    def test_what_was_done_is_saved(self) -> None:
        self.ask("edit", edits=["unstim a 10", "stim a 12 1"])
        self.ask("command", line="hold k")
        self.ask("command", line="delay g 1 1")
        for kind, words in (("no-pulse", "2"), ("stable", "1 12"), ("setup-hold", "a 0 1"), ("equal", "a 12"), ("equal", "a every 13")):
            self.assertEqual(self.rule(kind, words, "y"), [])
        text = self.ask("save", form="expectations", nets=["a", "y"])["text"]
        self.assertIn("expect-wave y 0 x 1 1 13 0\nexpect-no-pulse y 2\n# y: stays from 1 to 12\n", text)
        path = self.write("expectations", text.replace(os.path.relpath(self.folder), self.folder))
        [report] = check_files([path], Opening(""), None, 60, 1)
        self.assertEqual((report.error, report.failures(), report.expectations), (None, [], 4))
        python = self.write("saved.py", self.ask("save", form="python", nets=["a", "y"])["text"])
        environment = {**os.environ, "PYTHONPATH": os.path.join(ROOT, "python")}
        ran = subprocess.run([sys.executable, python], env=environment, capture_output=True, text=True, timeout=60)
        self.assertEqual((ran.returncode, ran.stderr), (0, ""))
        # What is broken is saved too, and then fails.
        self.rule("one-hot", "a", "y")
        python = self.write("saved.py", self.ask("save", form="python", nets=[])["text"])
        ran = subprocess.run([sys.executable, python], env=environment, capture_output=True, text=True, timeout=60)
        self.assertIn("assert not one_hot([session.wave(it) for it in ['y', 'a']])\nAssertionError", ran.stderr)

    def test_what_is_saved_names_a_design_with_a_blank_in_its_path(self) -> None:
        self.view.opening = self.view.opening._replace(design=self.write("my m.v", INVERTER))
        text = self.ask("save", form="expectations", nets=["y"])["text"]
        opening = script_of(text, os.getcwd()).opening
        assert opening is not None
        self.assertEqual((os.path.normpath(opening.design), opening.horizon), (os.path.join(self.folder, "my m.v"), 20))


class AnswersOfTool(Answers):
    """The same where the program knows the questions of tools, and what is known by them alone."""

    program_name = "gatetool"
    session = AskedSession

    def setUp(self) -> None:
        patch = mock.patch("gatebench.viewing.view.Session", self.session)
        patch.start()
        self.addCleanup(patch.stop)
        super().setUp()

    def asked(self, verb: str) -> List[str]:
        """The lines with this word that were asked since the last look."""
        session = self.view.current.session
        assert isinstance(session, AskedSession)
        lines, session.asked = session.asked, []
        return [it for it in lines if it.split()[0] == verb]

    def test_a_kind_and_a_net_that_was_dropped_are_given_back(self) -> None:
        self.ask("command", line="input i")
        self.ask("command", line="kind i tri1")
        self.ask("command", line="stim i 5 0")
        self.ask("command", line="dropnet i")
        self.ask("undo")
        session = self.view.current.session
        self.assertEqual((self.now("i"), session.kinds()["i"], session.inputs()), ([[0, "x"], [5, "0"]], "tri1", ["a", "i"]))
        for line, undone in (("kind y wor", "wire"), ("kind a tri0", "wire")):
            self.ask("command", line=line)
            self.ask("undo")
            self.assertEqual(session.kinds()[line.split()[1]], undone)
        self.ask("command", line="net n wand")
        self.ask("command", line="dropnet n")
        self.ask("undo")
        self.assertEqual(session.kinds()["n"], "wand")

    def test_gates_of_a_text_that_is_not_read_here(self) -> None:
        with mock.patch("gatebench.viewing.view.read_netlist", side_effect=ValueError("the text is not read here")):
            self.ask("reload")
        self.assertEqual(self.ask("design")["unread"], "")
        self.assertEqual([it["name"] for it in self.ask("net", net="y")["drivers"]], ["g"])
        self.ask("command", line="delay g 7 7")
        self.assertEqual((self.ask("undo")["undo"], self.now("y")[1]), (None, [2, "1"]))

    def test_of_a_long_run_what_is_shown_is_asked_for_alone(self) -> None:
        # a is 1 at odd moments up to 99; y, which is an inverter, follows it by 1.
        edits = [f"stim a {time} {time % 2}" for time in range(100)]
        self.serve(INVERTER, "".join(f"{it}\n" for it in ["delay g 1 1", *edits]), 10_000)
        self.asked("wave")
        said = self.ask("windows", rows=[["y"], ["a"]], start=50, end=53, parts=100, other="before")["rows"]
        self.assertEqual([it["now"] for it in said], [[[50, "0"], [51, "1"], [52, "0"], [53, "1"]]] * 2)
        self.assertEqual(self.asked("wave"), [])
        # All of it is asked for once.
        for _ in range(2):
            self.assertEqual(len(self.rows(["y"], end=9_999, parts=20_000)[0]["now"]), 101)


    def test_what_an_edit_leaves_as_it_was_is_not_read_again(self) -> None:
        self.rule("no-pulse", "2", "a")
        self.assertEqual(self.asked("wave"), ["wave a"])
        for drag in (None, "d", "d"):
            self.ask("edit", edits=["delay g 4 4"], drag=drag)
            self.assertEqual(self.asked("wave"), [])
        # What is shown of a as a whole is that too, and of y it is not.
        for parts in (4, 5, 6):
            self.ask("edit", edits=[f"delay g {parts} 4"], drag="e")
            a, y = self.rows(["a"], ["y"])
            self.assertEqual((a["now"], a["other"], a["shades"], y["now"][1]), ([[0, "0"], [10, "1"]], [], [], [parts, "1"]))
            self.assertNotIn("wave a", self.asked("wave"))
        self.ask("edit", edits=["stim a 11 0"])
        self.assertEqual(self.ask("design")["state"]["broken_count"], 1)
        self.assertEqual(self.asked("wave"), ["wave a"])
        self.ask("edit", edits=["horizon 19"])
        self.assertEqual(self.asked("wave"), ["wave a"])


class AnswersOfNewer(AnswersOfTool):
    """The same where the program sums windows up, and says what differs."""

    session = NewerSession

    def test_a_clock_that_does_not_change_is_never_read_whole(self) -> None:
        clock = "".join(f"stim a {time} {time % 2}\n" for time in range(1000))
        text = "module m(input a, b, output y, z);\n  not #1 g(y, a);\n  not #1 h(z, b);\nendmodule\n"
        self.serve(text, clock, 1000)
        # In ten parts of 100 moments the clock changes more than once in each.
        many = [[0, "0"], [1, "*"], [1001, "1"]]
        self.assertEqual(self.rows(["a"], end=1000, parts=10), [{"now": many}])
        self.ask("edit", edits=["stim b 3 1"])
        self.asked("wave")
        a, z = self.rows(["a"], ["z"], end=1000, parts=10)
        self.assertEqual(a, {"now": many, "other": [], "shades": []})
        self.assertEqual((z["now"], z["other"], z["shades"]), ([[0, "x"], [4, "0"]], [[0, "x"]], [[4, 1001]]))
        self.assertEqual(self.asked("wave"), ["wave z"])

    def test_a_part_of_a_net_that_differs_is_exact(self) -> None:
        self.ask("edit", edits=["stim a 12 0"])
        # y would fall at 13, but a is 0 again before.
        [y] = self.rows(["y"])
        self.assertEqual((y["now"], y["other"], y["shades"]), ([[0, "x"], [2, "1"]], [[0, "x"], [2, "1"], [13, "0"]], [[13, 21]]))


class Unknown(Served):
    def test_without_the_questions_of_tools_a_kind_is_not_given_back(self) -> None:
        for *before, line in (["kind a wor"], ["drop g", "dropnet y"]):
            for it in [*before, line]:
                self.ask("command", line=it)
            self.assertEqual(self.answer("undo"), (409, {"message": f"no edits undo {line}"}))


class Reloads(Served):
    def rewrite(self, text: str) -> None:
        """Another text in the file of the design. On a coarse clock it could have the time of the one before."""
        later = os.stat(self.design).st_mtime_ns + 10**9
        os.utime(self.write("m.v", text), ns=(later, later))

    def test_another_text_is_shown_beside_the_one_before(self) -> None:
        self.ask("command", line="stim a 15 0")
        self.assertFalse(self.ask("status")["stale"])
        self.rewrite(INVERTER.replace("(2,3)", "(4,1)"))
        self.assertTrue(self.ask("status")["stale"])
        self.assertEqual(self.ask("reload")["refused"], [])
        [y] = self.rows(["y"])
        self.assertEqual(y["now"], [[0, "x"], [4, "1"], [11, "0"], [19, "1"]])
        self.assertEqual(y["other"], [[0, "x"], [2, "1"], [13, "0"], [17, "1"]])
        self.assertEqual([it["net"] for it in self.ask("changes")["changes"]], ["y"])

    def test_a_refused_text_leaves_the_one_before(self) -> None:
        self.rewrite("module m(input a, output y);\n  reg q;\nendmodule\n")
        status, said = self.answer("reload")
        self.assertEqual((status, said["line"], said["name"]), (409, 2, "Unsupported"))
        self.assertFalse(self.ask("status")["stale"])
        self.assertEqual(self.now("y"), [[0, "x"], [2, "1"], [13, "0"]])

    def test_what_is_refused_of_the_log_is_said(self) -> None:
        self.ask("command", line="delay g 4 4")
        self.rewrite(INVERTER.replace(" g(", " other("))
        [refusal] = self.ask("reload")["refused"]
        self.assertIn("UnknownGate", refusal)

    def test_a_program_that_ended_is_said_and_started_again(self) -> None:
        self.ask("command", line="stim a 15 0")
        os.kill(int(self.read("number").split()[0]), signal.SIGKILL)
        status, said = self.answer("status")
        self.assertEqual((status, said["message"]), (503, "the program ended with status -9, and said nothing"))
        self.assertEqual(self.answer("edit", edits=["stim a 16 1"])[0], 503)
        self.ask("reload")
        self.assertEqual(self.now("y"), [[0, "x"], [2, "1"], [13, "0"], [17, "1"]])


class Words(WithFolder):
    def test_without_the_library_it_says_what_to_install(self) -> None:
        self.write("m.v", INVERTER)
        self.write("flask.py", "raise ModuleNotFoundError(name='flask')\n")
        paths = os.pathsep.join([self.folder, os.path.join(ROOT, "python")])
        ran = subprocess.run(
            [sys.executable, "-m", "gatebench", "view", "m.v"], cwd=self.folder,
            env={**os.environ, "PYTHONPATH": paths}, capture_output=True, text=True, timeout=60,
        )  # fmt: skip
        self.assertEqual(ran.returncode, 1)
        self.assertIn("python3-flask", ran.stderr)
