"""Names that are like one which is not there."""
import unittest

from gatebench import BatchRefused, Refused, Session
from gatebench.near import near, there_is
from gatebench.stimulus import bits_among

TEXT = """
module m(input data, sel, input [1:0] Bus, output y, z);
  not #1 first_gate(y, data);
  and #1 second_gate(z, data, sel);
endmodule
"""


class Near(unittest.TestCase):
    def test_a_name_with_a_wrong_letter_is_found(self) -> None:
        names = ["reset", "clk", "u1.data", "u1.sel", "u2.data", "q[1]", "q[0]"]
        for name, wanted in (
            ("rseet", ["reset"]),
            ("resett", ["reset"]),
            ("u1.dta", ["u1.data", "u2.data"]),
            ("CLK", ["clk"]),
            ("q", ["q[1]", "q[0]"]),
            ("enable", []),
        ):
            self.assertEqual(near(name, names), wanted, name)

    def test_no_more_than_three(self) -> None:
        self.assertEqual(near("bus", [f"bus[{it}]" for it in range(9)]), ["bus[0]", "bus[1]", "bus[2]"])
        self.assertEqual(len(near("net", [f"net{it}" for it in range(9)])), 3)

    def test_in_words(self) -> None:
        self.assertEqual((there_is(["a", "b"]), there_is([])), ("; there is a, b", ""))

    def test_a_vector(self) -> None:
        with self.assertRaisesRegex(ValueError, "no net is a bit of 'bsu'; there is bus$"):
            bits_among("bsu", ["bus[1]", "bus[0]", "clk"])


class Refusals(unittest.TestCase):
    def test_they_say_what_may_be_meant(self) -> None:
        with Session(text=TEXT, horizon=20) as session:
            held = session.hold("before")
            for ask, wanted in (
                (lambda: session.wave("dtaa"), ("data",)),
                (lambda: session.stim("bus", 0, 1), ("Bus[1]", "Bus[0]")),
                (lambda: session.delay("frist_gate", 1, 1), ("first_gate",)),
                (lambda: session.edits(["stim sel 0 1", "stim sell 5 0"]), ("sel",)),
                (lambda: session.value("enable", 0), ()),
                (lambda: session.value("y", 21), ()),
                (lambda: held.wave("dtaa"), ("data",)),
                (lambda: held.reach("dtaa", 0), ("data",)),
                (lambda: session.command("waev y"), ("wave",)),
                (lambda: session.edits(["stmi sel 0 1"]), ("stim", "unstim")),
                (lambda: session.command("stim sel 0 X"), ()),
            ):
                with self.assertRaises(Refused) as caught:
                    ask()
                self.assertEqual(caught.exception.near, wanted)
            with self.assertRaises(BatchRefused) as batch, session.batch() as edits:
                edits.stim("sel", 0, 1)
                edits.stim("dtaa", 0, 1)
        wanted = "no 1 UnknownNet: stim dtaa 0 1 (edit 2 of the batch): `dtaa`: no net has this name; there is data"
        self.assertEqual(str(batch.exception), wanted)


if __name__ == "__main__":
    unittest.main()
