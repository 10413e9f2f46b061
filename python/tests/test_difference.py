"""Which nets of two versions differ, and from when."""
import unittest
from typing import Type

from gatebench import Difference, Refused, Session, diff
from gatebench.difference import changed, question, read, said

from .newer import NewerSession

TEXT = "module m(input a, b, output y, z); not #(2,3) g(y, a); buf #1 h(z, b); endmodule"


class Differences(unittest.TestCase):
    """By the program where it knows the question, and else by dumps."""

    session_kind: Type[Session] = Session

    def setUp(self) -> None:
        self.session = self.session_kind(text=TEXT, horizon=20)
        self.addCleanup(self.session.kill)
        with self.session.batch() as batch:
            for net, time, value in (("a", 0, 0), ("b", 0, 0), ("a", 10, 1), ("b", 10, 1)):
                batch.stim(net, time, value)
        self.before = self.session.hold("before")

    def test_versions_that_are_the_same(self) -> None:
        self.assertEqual(diff(self.before, self.session), [])

    def test_nets_in_order_of_time_and_by_name(self) -> None:
        # y rises at 2 and falls at 13, z rises at 11. With 5, 5 and 2 these are 5, 15 and 12, and z is 0 from 2 on.
        with self.session.batch() as batch:
            batch.delay("g", 5, 5)
            batch.delay("h", 2, 2)
        self.assertEqual(diff(self.before, self.session), [Difference(1, "z", "0", "x"), Difference(2, "y", "1", "x")])
        self.assertEqual(diff(self.session, self.before), [Difference(1, "z", "x", "0"), Difference(2, "y", "x", "1")])

    def test_a_later_difference_alone(self) -> None:
        self.session.delay("g", 2, 4)
        self.assertEqual(diff(self.before, self.session), [Difference(13, "y", "0", "1")])
        self.session.stim("a", 10, "x")
        # a is x from 10 on, and y from 12 on.
        self.assertEqual(diff(self.before, self.session), [Difference(10, "a", "1", "x"), Difference(12, "y", "1", "x")])

    def test_nets_of_one_version_alone(self) -> None:
        # Without b and z the nets behind have other codes in a dump; c is new.
        with self.session.batch() as batch:
            for line in ("drop h", "dropnet b", "dropnet z", "input c", "stim c 0 1", "delay g 2 3"):
                batch.edit(line)
        wanted = [Difference(0, "b", "0", None), Difference(0, "c", None, "1"), Difference(0, "z", "x", None)]
        self.assertEqual(diff(self.before, self.session), wanted)
        turned = [Difference(it.time, it.net, it.after, it.before) for it in wanted]
        self.assertEqual(diff(self.session, self.before), turned)

    def test_two_held_versions(self) -> None:
        self.session.delay("g", 2, 4)
        after = self.session.hold("after")
        self.session.delay("g", 2, 1)
        self.assertEqual(diff(self.before, after), [Difference(13, "y", "0", "1")])
        self.assertEqual(diff(after, self.session), [Difference(11, "y", "1", "0")])
        self.before.free()
        with self.assertRaises(Refused) as caught:
            diff(self.before, after)
        self.assertEqual((caught.exception.name, caught.exception.word), ("UnknownHold", "before"))

    def test_versions_of_two_sessions(self) -> None:
        with self.session_kind(text=TEXT, horizon=20) as other:
            self.assertIsNone(changed(self.before, other))
            self.assertEqual([it[:2] for it in diff(self.before, other)], [(0, "a"), (0, "b"), (1, "z"), (2, "y")])

    def test_the_program_says_what_both_dumps_have(self) -> None:
        with self.session.batch() as batch:
            for line in ("drop h", "dropnet z", "input c", "stim c 0 1", "delay g 1 5", "horizon 15"):
                batch.edit(line)
        for first, second in ((self.before, self.session), (self.session, self.before), (self.before, self.session.hold("after"))):
            asked = question(first, second)
            self.assertEqual(asked is None, changed(first, second) is None)
            if asked:
                self.assertEqual(said(*asked), read(first, second))

    def test_what_is_past_the_lesser_horizon_counts_not(self) -> None:
        self.session.horizon(30)
        self.session.stim("a", 25, 0)
        self.assertEqual(diff(self.before, self.session), [])
        self.session.stim("a", 20, 0)
        self.assertEqual(diff(self.before, self.session), [Difference(20, "a", "1", "0")])
        self.session.horizon(19)
        self.assertEqual(diff(self.before, self.session), [])


class DifferencesOfNewer(Differences):
    """The same by the lines of an answer."""

    session_kind = NewerSession


if __name__ == "__main__":
    unittest.main()
