"""Why edits are refused: each cause, and beside it an edit that is accepted."""
import unittest
from typing import List, Tuple

from ..making import WithDesigns, lines_of
from .designs import DESIGN

# An edit, and why it is refused, or nothing where it is accepted.
Rows = List[Tuple[str, str]]

# What has the name of a gate alone may be added as a net, and no gate may be removed as one.
EDITS_OF_NETS: Rows = [
    ("net m wire", ""),
    ("net u.t wire", ""),
    ("net m' wire", "4 BadName"),
    ("net $end wire", "4 BadName"),
    ("net .a wire", "4 BadName"),
    ("net a. wire", "4 BadName"),
    ("net a..b wire", "4 BadName"),
    ("net a.$end wire", "4 BadName"),
    ("net y tri", "3 DuplicateName"),
    ("net a wire", "3 DuplicateName"),
    ("net g wire", ""),
    ("input m", ""),
    ("input m'", "4 BadName"),
    ("input u.a", ""),
    ("input u..a", "4 BadName"),
    ("input y", "3 DuplicateName"),
    ("input g", ""),
    ("dropnet u", ""),
    ("dropnet m", "1 UnknownNet"),
    ("dropnet g", "1 UnknownNet"),
    ("dropnet a", "10 NetInUse"),
    ("dropnet y", "10 NetInUse"),
    ("dropnet n", "10 NetInUse"),
    ("kind y wor", ""),
    ("kind y wire", ""),
    ("kind a wand", ""),
    ("kind m wire", "1 UnknownNet"),
]

# The last six have several faults: that of the name comes first, then those of the delays, the number of inputs, and the nets.
NEW_GATES: Rows = [
    ("gate k and 1 1000000 u a y 1'b0", ""),
    ("gate a buf 1 1 u u", ""),
    ("gate k' buf 1 1 u a", "4 BadName"),
    ("gate u.g buf 1 1 u a", ""),
    ("gate u. buf 1 1 u a", "4 BadName"),
    ("gate h buf 1 1 u a", "3 DuplicateName"),
    ("gate k buf 0 1 u a", "5 ZeroDelay"),
    ("gate k buf 1 0 u a", "5 ZeroDelay"),
    ("gate k buf 1000001 1 u a", "6 DelayTooLarge"),
    ("gate k buf 1 1000001 u a", "6 DelayTooLarge"),
    ("gate k buf 1 1 u a b", "7 WrongArity"),
    ("gate k and 1 1 u", "7 WrongArity"),
    ("gate k and 1 1 u a", ""),
    ("gate k bufif1 1 1 u a", "7 WrongArity"),
    ("gate k bufif1 1 1 u a b", ""),
    ("gate k buf 1 1 m a", "1 UnknownNet"),
    ("gate k buf 1 1 u m", "1 UnknownNet"),
    ("gate k and 1 1 u a m", "1 UnknownNet"),
    ("gate k buf 1 1 b a", "8 DrivenInput"),
    ("gate h' buf 0 1 u a", "4 BadName"),
    ("gate h buf 0 1 u a", "3 DuplicateName"),
    ("gate k buf 0 1000001 m", "5 ZeroDelay"),
    ("gate k buf 1000001 1 m", "6 DelayTooLarge"),
    ("gate k buf 1 1 m a b", "7 WrongArity"),
    ("gate k buf 1 1 b m", "1 UnknownNet"),
]

# A net's name names no gate. Of several faults the earliest check gives its own.
EDITS_OF_GATES: Rows = [
    ("drop g", ""),
    ("drop k", "2 UnknownGate"),
    ("drop y", "2 UnknownGate"),
    ("delay g 1000000 1", ""),
    ("delay g 0 1000001", "5 ZeroDelay"),
    ("delay g 1000001 0", "5 ZeroDelay"),
    ("delay g 1 1000001", "6 DelayTooLarge"),
    ("delay g 1000001 1", "6 DelayTooLarge"),
    ("delay k 0 1", "2 UnknownGate"),
    ("type g and", ""),
    ("type g not", ""),
    ("type g bufif1", "7 WrongArity"),
    ("type h notif0", ""),
    ("type h not", "7 WrongArity"),
    ("type k and", "2 UnknownGate"),
    ("wire g u b", ""),
    ("wire g u 1'b1", ""),
    ("wire k u a b", "2 UnknownGate"),
    ("wire g m a b", "7 WrongArity"),
    ("wire g u", "7 WrongArity"),
    ("wire h n a", ""),
    ("wire g m a", "1 UnknownNet"),
    ("wire g u m", "1 UnknownNet"),
    ("wire g b m", "1 UnknownNet"),
    ("wire g b a b", "7 WrongArity"),
    ("wire g b a", "8 DrivenInput"),
]

# An input d, a control c, a net n, and the gates g, which may stop driving n, h and i.
BUS = "input d; input c; net n wire; gate g bufif1 2 3/5 n d c; gate h notif0 2 3 n d c; gate i and 2 3 n d c; horizon 30"

TURN_OFF_DELAYS: Rows = [
    ("gate k bufif1 1 2/3 n d c", ""),
    ("gate k bufif0 1 2/1000000 n d c", ""),
    ("gate k notif1 1 2/1 n d c", ""),
    ("gate k notif0 1 2/3 n d c", ""),
    ("gate k and 1 2/3 n d c", "21 NoTurnOff"),
    ("gate k buf 1 2/3 n d", "21 NoTurnOff"),
    ("gate k xnor 1 2/3 n d c", "21 NoTurnOff"),
    ("gate k bufif1 1 2/0 n d c", "5 ZeroDelay"),
    ("gate k and 1 2/0 n d c", "5 ZeroDelay"),
    ("gate k and 0 2/3 n d c", "5 ZeroDelay"),
    ("gate k bufif1 1 2/1000001 n d c", "6 DelayTooLarge"),
    ("gate k and 1 2/1000001 n d c", "6 DelayTooLarge"),
    ("gate k and 1000001 2/3 n d c", "6 DelayTooLarge"),
    ("gate k bufif1 1000001 2/0 n d c", "5 ZeroDelay"),
    ("gate k buf 1 2/3 n d c", "21 NoTurnOff"),
    ("gate k buf 1 2/3 m d", "21 NoTurnOff"),
    ("gate k buf 1 2/3 d d", "21 NoTurnOff"),
    ("gate k bufif1 1 2/3 n d", "7 WrongArity"),
    ("gate k bufif1 1 2/3 m d c", "1 UnknownNet"),
    ("gate k bufif1 1 2/3 d d c", "8 DrivenInput"),
    ("gate k' and 1 2/3 n d c", "4 BadName"),
    ("gate i and 1 2/3 n d c", "3 DuplicateName"),
    ("delay g 2 3", ""),
    ("delay g 6 7/4", ""),
    ("delay h 6 7/4", ""),
    ("delay i 6 7", ""),
    ("delay i 6 7/4", "21 NoTurnOff"),
    ("delay i 6 7/0", "5 ZeroDelay"),
    ("delay g 2 3/0", "5 ZeroDelay"),
    ("delay i 6 7/1000001", "6 DelayTooLarge"),
    ("delay k 6 7/4", "2 UnknownGate"),
    ("type g notif0", ""),
    ("type g and", "21 NoTurnOff"),
    ("type g xor", "21 NoTurnOff"),
    ("type g buf", "7 WrongArity"),
    ("type h and", ""),
    ("type i bufif1", ""),
    ("wire g n c d", ""),
]

# The last moment is 1,099,511,627,776.
EDITS_OF_THE_STIMULUS: Rows = [
    ("stim a 1099511627776 1", ""),
    ("stim a 1099511627777 1", "11 TimeTooLarge"),
    ("stim y 0 1", "9 NotInput"),
    ("stim y 1099511627777 1", "9 NotInput"),
    ("stim m 0 1", "1 UnknownNet"),
    ("stim g 0 1", "1 UnknownNet"),
    ("unstim a 10", ""),
    ("unstim a 11", "12 NoSuchPoint"),
    ("unstim b 10", "12 NoSuchPoint"),
    ("unstim a 1099511627777", "12 NoSuchPoint"),
    ("unstim y 10", "9 NotInput"),
    ("unstim m 10", "1 UnknownNet"),
    ("horizon 1099511627776", ""),
    ("horizon 1099511627777", "11 TimeTooLarge"),
]


class Refused(WithDesigns):
    def check_rows(self, first: str, rows: Rows) -> None:
        """Each edit of its own."""
        for line, cause in rows:
            with self.subTest(line):
                self.check_reply(lines_of(first), line, cause)

    def test_edits_of_nets(self) -> None:
        self.check_rows(DESIGN, EDITS_OF_NETS)

    def test_new_gates(self) -> None:
        self.check_rows(DESIGN, NEW_GATES)

    def test_edits_of_gates(self) -> None:
        self.check_rows(DESIGN, EDITS_OF_GATES)

    def test_turn_off_delays(self) -> None:
        self.check_rows(BUS, TURN_OFF_DELAYS)

    def test_edits_of_the_stimulus(self) -> None:
        self.check_rows(DESIGN, EDITS_OF_THE_STIMULUS)


if __name__ == "__main__":
    unittest.main()
