"""Batches, and snapshots that are held by name."""
import unittest

from .talks import BUFFER, EMPTY, Talk, WithTalks

SLOW = "module m(a,y); input a; output y; buf #(5,5) g(y,a); endmodule"
TWO_DRIVERS = "module m(a,b,q); input a,b; output q; buf #1 g0(n,a), g1(n,b), h(q,n); endmodule"

# Before the commit the wave is as it was.
MOVED: Talk = [
    ("stim a 0 0", "ok 1"),
    ("stim a 10 1", "ok 2"),
    ("wave y", "0 x", "5 0", "15 1", "ok 2"),
    ("begin", "ok 2"),
    ("unstim a 10", "ok 2"),
    ("stim a 12 1", "ok 2"),
    ("wave y", "0 x", "5 0", "15 1", "ok 2"),
    ("commit", "ok 3"),
    ("wave y", "0 x", "5 0", "17 1", "ok 3"),
]

REPLACED: Talk = [
    ("stim a 0 0", "ok 1"),
    ("wave y", "0 x", "5 0", "ok 1"),
    ("begin", "ok 1"),
    ("drop g", "ok 1"),
    ("gate h not 2 2 y a", "ok 1"),
    ("commit", "ok 2"),
    ("wave y", "0 x", "2 1", "ok 2"),
]

# The net n is driven to 0 and to 1: x as a wire, 1 as a wor.
REPLACED_NET: Talk = [
    ("stim a 0 0", "ok 1"),
    ("stim b 0 1", "ok 2"),
    ("wave n", "0 x", "ok 2"),
    ("wave q", "0 x", "ok 2"),
    ("begin", "ok 2"),
    ("drop g0", "ok 2"),
    ("drop g1", "ok 2"),
    ("drop h", "ok 2"),
    ("dropnet n", "ok 2"),
    ("net n wor", "ok 2"),
    ("gate g0 buf 1 1 n a", "ok 2"),
    ("gate g1 buf 1 1 n b", "ok 2"),
    ("gate h buf 1 1 q n", "ok 2"),
    ("commit", "ok 3"),
    ("wave n", "0 x", "1 1", "ok 3"),
    ("wave q", "0 x", "2 1", "ok 3"),
]

SHORTENED: Talk = [
    ("stim a 0 0", "ok 1"),
    ("stim a 10 1", "ok 2"),
    ("stim a 13 0", "ok 3"),
    ("horizon 10", "ok 4"),
    ("wave y", "0 x", "3 0", "ok 4"),
    ("wave a", "0 0", "10 1", "ok 4"),
    ("horizon 100", "ok 5"),
    ("wave y", "0 x", "3 0", "13 1", "16 0", "ok 5"),
]

REFUSED: Talk = [
    ("frob", "no 16 BadCommand"),
    ("stim a 1099511627777 1", "no 11 TimeTooLarge"),
    ("stim a 1099511627776 1", "ok 1"),
    ("delay g 1000000 1", "ok 2"),
    ("delay g 1 1000001", "no 6 DelayTooLarge"),
    ("free k", "no 18 UnknownHold"),
    ("commit", "no 19 NoBatch"),
    ("abort", "no 19 NoBatch"),
    ("stim y 0 1", "no 9 NotInput"),
    ("dropnet y", "no 10 NetInUse"),
    ("wave q", "no 1 UnknownNet"),
    ("hold k", "ok 2"),
    ("at k at k wave y", "no 16 BadCommand"),
    ("at q wave y", "no 18 UnknownHold"),
    ("begin", "ok 2"),
    ("begin", "no 20 InBatch"),
    ("quit", "ok 2"),
]

HELD: Talk = [
    ("input a", "ok 1"),
    ("stim a 5 1", "ok 2"),
    # the checks of a name, in order
    ("hold a.b", "ok 2"),
    ("hold a..b", "no 4 BadName"),
    ("hold a'b", "no 4 BadName"),
    ("hold", "no 16 BadCommand"),
    ("hold k l", "no 16 BadCommand"),
    ("hold k", "ok 2"),
    ("hold k", "no 3 DuplicateName"),
    # a held snapshot keeps its version, its design and its horizon
    ("stim a 5 0", "ok 3"),
    ("horizon 8", "ok 4"),
    ("at k wave a", "0 x", "5 1", "ok 2"),
    ("wave a", "0 x", "5 0", "ok 4"),
    ("at k value a 20", "1", "ok 2"),
    ("at k value a 21", "no 11 TimeTooLarge"),
    ("value a 9", "no 11 TimeTooLarge"),
    ("at k value b 21", "no 1 UnknownNet"),
    ("at k next a 4", "5 1", "ok 2"),
    ("at k prev a 5", "0 x", "ok 2"),
    ("at k seek a 0 z", "none", "ok 2"),
    # what can't be read comes before an unknown name
    ("at l frob", "no 16 BadCommand"),
    ("at l", "no 16 BadCommand"),
    ("at l wave a", "no 18 UnknownHold"),
    ("at k begin", "no 16 BadCommand"),
    ("at k quit", "no 16 BadCommand"),
    # in a batch they ask and hold the present snapshot
    ("begin now", "no 16 BadCommand"),
    ("begin", "ok 4"),
    ("dropnet a", "ok 4"),
    ("dropnet a", "ok 4"),
    ("frob", "no 16 BadCommand"),
    ("value a 8", "0", "ok 4"),
    ("hold l", "ok 4"),
    ("at l value a 8", "0", "ok 4"),
    ("free k", "ok 4"),
    ("free k", "no 18 UnknownHold"),
    ("at l prev a 8", "5 0", "ok 4"),
    # the commit is refused for its second edit, and ends the batch
    ("commit now", "no 16 BadCommand"),
    ("commit", "no 1 UnknownNet"),
    ("commit", "no 19 NoBatch"),
    ("wave a", "0 x", "5 0", "ok 4"),
    # the empty batch is a commit; what an abort drops is not
    ("begin", "ok 4"),
    ("commit", "ok 5"),
    ("begin", "ok 5"),
    ("dropnet a", "ok 5"),
    ("abort", "ok 5"),
    ("abort", "no 19 NoBatch"),
    ("wave a", "0 x", "5 0", "ok 5"),
]


class Batches(WithTalks):
    def test_a_point_is_moved(self) -> None:
        self.check_talk(SLOW, MOVED, "--horizon=30")

    def test_a_gate_is_replaced(self) -> None:
        self.check_talk(SLOW, REPLACED, "--horizon=10")

    def test_a_net_is_replaced(self) -> None:
        self.check_talk(TWO_DRIVERS, REPLACED_NET, "--horizon=10")

    def test_a_shorter_horizon_keeps_the_points(self) -> None:
        self.check_talk(BUFFER, SHORTENED, "--horizon=100")

    def test_refusals_of_each_kind(self) -> None:
        self.check_talk(BUFFER, REFUSED, "--horizon=10")

    def test_held_snapshots_line_by_line(self) -> None:
        self.check_talk(EMPTY, HELD, "--horizon=20")

    def test_a_batch_keeps_4096_edits(self) -> None:
        commands = "begin\n" + "horizon 1\n" * 4097 + "commit\nvalue a 1\n"
        self.check_replies(BUFFER, commands, "ok 0\n" * 4097 + "no 13 TooMany\nok 1\nx\nok 1\n", "--horizon=0")

    def test_names_of_64_snapshots(self) -> None:
        """The 65th is one too many, and there is room again once one is freed. The names are of a letter and any other byte that
        a name may have."""
        names = [f"k{chr(byte)}" for byte in range(33, 100) if chr(byte) not in "'."]
        commands = "".join(f"hold {name}\n" for name in names) + "free k!\nhold k\n"
        self.check_replies(EMPTY, commands, "ok 0\n" * 64 + "no 13 TooMany\nok 0\nok 0\n", "--horizon=0")


if __name__ == "__main__":
    unittest.main()
