"""Sessions in which the commands of a file were carried out: as one by one, in fewer runs."""
import unittest
from typing import List
from unittest import mock

from gatebench import Refused, Session
from gatebench.edits import MAX_BATCH
from gatebench.script import BadStep, Step, carry_out, script_of
from gatebench.started import carry_out_together, in_batches, started

from .support import INVERTER

COMMANDS = """
stim a 0 0
stim a 10 1
expect y 2 1
hold early
delay g 1 1
gate h not 1 1 n a
expect-refused UnknownNet stim b 0 0
net n wire
gate h not 1 1 n a
begin
stim a 15 0
value y 11
commit
begin
drop h
abort
stim a 20 1
at early expect y 13 0
expect-wave y 0 x 1 1 11 0 16 1 21 0
"""


def steps_of(text: str) -> List[Step]:
    return script_of(text, "").steps


def opened() -> Session:
    return Session(text=INVERTER, horizon=30)


class Started(unittest.TestCase):
    def start(self, text: str) -> Session:
        session, _ = started(opened, steps_of(text))
        self.addCleanup(session.kill)
        return session

    def test_edits_that_follow_one_another_are_a_batch(self) -> None:
        lines = [line for line, _ in in_batches(steps_of("stim a 0 0\nfault stim a 1 1\nhold k\ngate g\nhorizon 9\nwave y\nbegin\ndrop g\nabort\n"))]
        self.assertEqual(lines, ["begin", "stim a 0 0", "fault stim a 1 1", "commit", "hold k", "gate g", "begin", "horizon 9", "commit",
                                 "wave y", "begin", "drop g", "abort"])  # fmt: skip
        self.assertEqual(list(in_batches([])), [])

    def test_as_one_by_one(self) -> None:
        text = COMMANDS.replace("gate h not 1 1 n a\n", "", 1)
        steps = steps_of(text)
        session, replies = started(opened, steps)
        self.addCleanup(session.kill)
        other = opened()
        self.addCleanup(other.kill)
        by_line = carry_out(other, steps)
        self.assertEqual([(it.lines, it.is_ok) for it in replies], [(it.lines, it.is_ok) for it in by_line])
        for version in (session, session.at("early")), (other, other.at("early")):
            self.assertEqual([it.dump() for it in version], [other.dump(), other.at("early").dump()])
        # There are 5 commits in place of 7.
        self.assertEqual([it.ask(["value a 0"])[0].version("") for it in (session, other)], [5, 7])

    def test_what_is_refused_is_said_with_its_line(self) -> None:
        for text, number in ((COMMANDS, 7), ("stim a 0 0\nstim y 0 0\n", 2), ("stim a 0 0\nexpect y 2 0\n", 2), ("stim a 0 2\n", 1), ("begin\ndrop q\ncommit\n", 3)):
            with self.assertRaises(BadStep) as caught:
                started(opened, steps_of(text))
            self.assertEqual(caught.exception.number, number, text)

    def test_a_file_that_leaves_a_batch_open(self) -> None:
        session = self.start("stim a 0 0\nbegin\nstim a 5 1\n")
        self.assertEqual(session.value("a", 6), "0")
        session.commit()
        self.assertEqual(session.value("a", 6), "1")

    def test_more_edits_than_a_batch_takes(self) -> None:
        steps = [Step(number, "", f"stim a {number} {number % 2}") for number in range(MAX_BATCH + 3)]
        with opened() as session:
            replies = carry_out_together(session, steps)
            self.assertEqual([len(replies or ()), session.ask(["value a 30"])[0].end], [MAX_BATCH + 3, "ok 2"])

    def test_another_session_tells_why(self) -> None:
        sessions: List[Session] = []

        def open_session() -> Session:
            sessions.append(opened())
            return sessions[-1]

        with mock.patch("gatebench.started.carry_out", side_effect=Refused(14, "OutOfMemory", "stim a 0 0")), self.assertRaises(Refused):
            started(open_session, steps_of("stim y 0 0\n"))
        self.assertEqual([it._channel.is_open for it in sessions], [False, False])


if __name__ == "__main__":
    unittest.main()
