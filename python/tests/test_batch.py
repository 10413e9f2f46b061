"""Batches: one commit, or the edit at fault."""
import unittest
from typing import List, Sequence

from gatebench import BatchRefused, Change, Refused, Session
from gatebench.refusal import commit_refused, place_at_fault
from gatebench.replies import Reply

from .support import INVERTER

GOOD = "stim a 5 1"


def state(session: Session) -> "tuple[str, str]":
    """The version and the run."""
    [reply] = session.ask(["vcd"])
    return reply.end, "\n".join(reply.lines)


class Batches(unittest.TestCase):
    def setUp(self) -> None:
        self.session = Session(text=INVERTER, horizon=20)
        self.addCleanup(self.session.kill)

    def refusal(self, lines: Sequence[str]) -> BatchRefused:
        """What a batch of these lines raises. It leaves all as it was, and no batch open."""
        before = state(self.session)
        with self.assertRaises(BatchRefused) as caught:
            with self.session.batch() as batch:
                for line in lines:
                    batch.edit(line)
        self.assertEqual(state(self.session), before)
        self.assertEqual(self.session.ask(["abort"])[0].name, "NoBatch")
        return caught.exception

    def test_a_batch_is_one_version(self) -> None:
        with self.session.batch() as batch:
            self.assertEqual(batch.version, -1)
            batch.stim("a", 0, 0)
            batch.stim("a", 10, 1)
            batch.delay("g", 1, 1)
            self.assertEqual(self.session.wave("y").changes, (Change(0, "x"),))
        self.assertEqual(batch.version, 1)
        self.assertEqual(self.session.wave("y").changes, (Change(0, "x"), Change(1, "1"), Change(11, "0")))

    def test_a_batch_without_edits_is_a_version_too(self) -> None:
        with self.session.batch() as batch:
            pass
        self.assertEqual(batch.version, 1)

    def test_a_block_that_raises_carries_nothing_out(self) -> None:
        before = state(self.session)
        with self.assertRaises(KeyError):
            with self.session.batch() as batch:
                batch.stim("a", 0, 0)
                raise KeyError
        self.assertEqual(state(self.session), before)

    def test_the_edit_at_fault_at_each_place(self) -> None:
        for count in (1, 2, 3, 8):
            for place in range(count):
                lines = [GOOD] * place + ["drop h"] + [GOOD] * (count - place - 1)
                found = self.refusal(lines)
                self.assertEqual((found.place, found.command), (place, "drop h"), (count, place))

    def test_each_cause_is_told(self) -> None:
        causes = {
            "wire g q a": (1, "UnknownNet"),
            "drop h": (2, "UnknownGate"),
            "net a wire": (3, "DuplicateName"),
            "net a'b wire": (4, "BadName"),
            "delay g 0 1": (5, "ZeroDelay"),
            "stim y 0 1": (9, "NotInput"),
            "unstim a 7": (12, "NoSuchPoint"),
            "delay g 1 1/1": (21, "NoTurnOff"),
        }
        for line, cause in causes.items():
            found = self.refusal([GOOD, GOOD, line, GOOD])
            self.assertEqual((found.code, found.name, found.place, found.command), (*cause, 2, line))

    def test_the_first_of_several_is_at_fault(self) -> None:
        found = self.refusal([GOOD, "drop h", "wire g q a", "drop h", GOOD])
        self.assertEqual((found.place, found.name), (1, "UnknownGate"))
        found = self.refusal([GOOD, GOOD, "wire g q a", "drop h", "wire g q a"])
        self.assertEqual((found.place, found.name), (2, "UnknownNet"))

    def test_an_edit_at_fault_only_after_another(self) -> None:
        found = self.refusal(["drop g", GOOD, "delay g 1 1", "drop g"])
        self.assertEqual((found.place, found.command), (2, "delay g 1 1"))

    def test_an_edit_that_can_t_be_read(self) -> None:
        found = self.refusal([GOOD, "stim a five 1", "drop h"])
        self.assertEqual((found.place, found.code, found.command), (1, 16, "stim a five 1"))

    def test_an_edit_over_the_number_that_a_batch_keeps(self) -> None:
        found = self.refusal([GOOD] * 4096 + ["stim a 6 1", GOOD])
        self.assertEqual((found.place, found.name, found.command), (4096, "TooMany", "stim a 6 1"))

    def test_the_last_edit_of_a_full_batch(self) -> None:
        found = self.refusal([GOOD] * 4095 + ["drop h"])
        self.assertEqual((found.place, found.command), (4095, "drop h"))
        self.assertEqual(str(found), "no 2 UnknownGate: drop h (edit 4096 of the batch): `h`: no gate has this name")

    def test_a_batch_in_a_batch_of_the_program(self) -> None:
        self.session.begin()
        with self.assertRaises(Refused) as caught:
            with self.session.batch() as batch:
                batch.stim("a", 0, 0)
        self.assertEqual(caught.exception.name, "InBatch")
        # Nothing was put into the batch that is open.
        self.session.commit()
        self.assertEqual(self.session.wave("a").changes, (Change(0, "x"),))

    def test_a_line_that_is_no_command_is_not_sent(self) -> None:
        before = state(self.session)
        for wrong in ("", "# stim", "stim a 0 1\nquit"):
            with self.assertRaises(ValueError):
                with self.session.batch() as batch:
                    batch.edit(GOOD)
                    batch.edit(wrong)
        self.assertEqual(state(self.session), before)


class Halving(unittest.TestCase):
    """The place of the edit at fault, from a program that is played here: it refuses an edit `bad` with the code 7."""

    def test_few_trials_find_the_place(self) -> None:
        trials = []

        def exchange(lines: Sequence[str]) -> List[Reply]:
            trials.append(lines)
            end = "no 7 WrongArity" if "bad" in lines else "no 2 UnknownGate"
            return [Reply((), "ok 0")] * (len(lines) - 1) + [Reply((), end)]

        edits = ["good"] * 3000 + ["bad"] + ["good"] * 1095
        self.assertEqual(place_at_fault(exchange, edits, Reply((), "no 7 WrongArity")), 3000)
        self.assertLessEqual(len(trials), 12)
        # A trial is a whole batch that the probe, behind its edits, lets nobody carry out.
        for lines in trials:
            self.assertEqual((lines[0], *lines[-2:]), ("begin", "drop '", "commit"))

    def test_each_place_is_found(self) -> None:
        def exchange(lines: Sequence[str]) -> List[Reply]:
            return [Reply((), "no 7 WrongArity" if "bad" in lines else "no 2 UnknownGate")]

        for count in range(1, 20):
            for place in range(count):
                edits = ["good"] * place + ["bad"] + ["good"] * (count - place - 1)
                self.assertEqual(place_at_fault(exchange, edits, Reply((), "no 7 WrongArity")), place)

    def test_the_probe_has_another_cause_than_the_batch(self) -> None:
        def exchange(lines: Sequence[str]) -> List[Reply]:
            end = "no 2 UnknownGate" if "bad" in lines or "drop '" in lines else "no 1 UnknownNet"
            return [Reply((), end)]

        self.assertEqual(place_at_fault(exchange, ["good", "good", "bad"], Reply((), "no 2 UnknownGate")), 2)

    def test_a_cause_that_lies_with_no_edit(self) -> None:
        def exchange(lines: Sequence[str]) -> List[Reply]:
            raise AssertionError("no trial is wanted")

        for end in ("no 14 OutOfMemory", "no 15 WorkerLost"):
            found = commit_refused(exchange, [GOOD, GOOD], Reply((), end))
            self.assertNotIsInstance(found, BatchRefused)
            self.assertEqual((f"no {found.code} {found.name}", found.command), (end, "commit"))

    def test_a_trial_without_memory_names_no_edit(self) -> None:
        def exchange(lines: Sequence[str]) -> List[Reply]:
            return [Reply((), "no 14 OutOfMemory")]

        with self.assertRaises(Refused) as caught:
            place_at_fault(exchange, [GOOD, "bad"], Reply((), "no 7 WrongArity"))
        self.assertEqual((caught.exception.code, caught.exception.command), (7, "commit"))
