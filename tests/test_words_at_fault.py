"""Tests of gatetool: the word at fault of a refusal, `fault LINE`; each reply was worked out by hand."""
import unittest

from .support import WithTool

DESIGN = """module m(input a, b, output y, z);
  nand #(2,3) g(y, a, b);
  bufif1 #(1,2,4) t(z, y, a);
endmodule
"""
LAST = 1_099_511_627_776
# What the gates and the points of a are after what was refused.
LEFT = "g nand 2 3 y a b\nt bufif1 1 2/4 z y a\nok 1\n0 1\nok 1\n"


class Words(WithTool):
    def setUp(self) -> None:
        super().setUp()
        self.given(DESIGN, "a 0 1", "b 0 1")

    def check_refused(self, line: str, why: str, word: str = "") -> None:
        """The line is refused in this way, with this word behind `fault`, and changes nothing."""
        named = f" {word}" if word else ""
        self.assertEqual(self.ask("hold k", line, f"fault {line}", "gates", "points a"), f"ok 1\nno {why}\nno {why}{named}\n{LEFT}", line)


class Edits(Words):
    def test_an_unknown_net_is_the_first_in_the_order_of_checks(self) -> None:
        for line, word in (
            ("dropnet q", "q"), ("kind q wand", "q"), ("stim q 1099511627777 1", "q"), ("unstim q 0", "q"),
            # OUT comes first, then each input.
            ("wire g q1 a q2", "q1"), ("wire g y a q2 q3", "q2"), ("gate h and 1 1 q3 q1 q2", "q3"), ("gate h and 1 1 y 1'b0 a q", "q"),
            # A gate's name is no net's, a constant drives nothing, and a known input is refused behind all unknown names.
            ("wire g y g", "g"), ("wire g 1'b0 a", "1'b0"), ("wire g a b q", "q"),
        ):  # fmt: skip
            self.check_refused(line, "1 UnknownNet", word)

    def test_an_unknown_gate(self) -> None:
        for line in ("drop h", "delay h 0 0", "type h and", "wire h q q"):
            self.check_refused(line, "2 UnknownGate", "h")

    def test_a_name_that_is_there_or_may_not_be(self) -> None:
        for line, word in (("net y wand", "y"), ("input a", "a"), ("gate g and 0 0 q", "g"), ("hold k", "k")):
            self.check_refused(line, "3 DuplicateName", word)
        for word in ("n'", "a..b", "$end", "u.$end", ".", "n" * 1_025):
            for line in (f"net {word} wire", f"input {word}", f"gate {word} and 0 0 q", f"hold {word}"):
                self.check_refused(line, "4 BadName", word)

    def test_the_first_delay_of_the_cause(self) -> None:
        # All delays are looked at for a 0 before one is looked at for the limit, and for the limit before the kind counts.
        for line, why, word in (
            ("delay g 0 1", "5 ZeroDelay", "0"), ("delay g 1000001 0", "5 ZeroDelay", "0"), ("delay t 1 1/0", "5 ZeroDelay", "0"),
            ("delay g 1000001 1000002", "6 DelayTooLarge", "1000001"), ("delay g 1000000 1000002", "6 DelayTooLarge", "1000002"),
            ("delay t 2 1000003/1000002", "6 DelayTooLarge", "1000003"), ("delay t 2 2/1000002", "6 DelayTooLarge", "1000002"),
            ("gate h and 1 1000001/2 q", "6 DelayTooLarge", "1000001"), ("gate h and 1 0/1000001 q", "5 ZeroDelay", "0"),
        ):  # fmt: skip
            self.check_refused(line, why, word)

    def test_a_turn_off_delay(self) -> None:
        # Two inputs fit an `and`: what it can't have is the gate's turn-off delay.
        for line, word in (("gate h and 1 2/3 q", "3"), ("delay g 1 2/3", "3"), ("type t and", "and")):
            self.check_refused(line, "21 NoTurnOff", word)

    def test_a_wrong_number_of_inputs(self) -> None:
        for line, word in (("gate h not 1 1 q a b", "not"), ("gate h xor 1 1 q", "xor"), ("type g buf", "buf"), ("type t not", "not"), ("wire g a", "g"), ("wire t q q", "t")):
            self.check_refused(line, "7 WrongArity", word)

    def test_nets_that_are_inputs_or_not_or_in_use(self) -> None:
        for line, word in (("gate h and 1 1 a b", "a"), ("wire g b a", "b")):
            self.check_refused(line, "8 DrivenInput", word)
        for line in ("stim y 1099511627777 1", "unstim y 0", "points y"):
            self.check_refused(line, "9 NotInput", "y")
        for word in ("a", "y", "z"):
            self.check_refused(f"dropnet {word}", "10 NetInUse", word)

    def test_moments(self) -> None:
        for line in (f"stim a {LAST + 1} 1", f"horizon {LAST + 1}"):
            self.check_refused(line, "11 TimeTooLarge", str(LAST + 1))
        for word in ("1", str(LAST + 1)):
            self.check_refused(f"unstim a {word}", "12 NoSuchPoint", word)

    def test_numbers_stand_as_they_were_read(self) -> None:
        # Above the greatest number a word counts as that one; the zeros before a number are not part of it.
        for line, why, word in (
            ("unstim a 0007", "12 NoSuchPoint", "7"), ("delay g 1 000", "5 ZeroDelay", "0"),
            ("horizon 99999999999999999999", "11 TimeTooLarge", "18446744073709551615"), ("delay g 18446744073709551616 1", "6 DelayTooLarge", "18446744073709551615"),
        ):  # fmt: skip
            self.check_refused(line, why, word)


class Questions(Words):
    def test_names(self) -> None:
        for verb in ("value q 41", "wave q", "next q 41", "prev q 0", "seek q 0 1", "drivers q", "readers q", "points q", "window q 5 0", "why q 41", "reach q 41"):
            self.check_refused(verb, "1 UnknownNet", "q")
            self.check_refused(f"at k {verb}", "1 UnknownNet", "q")
        self.check_refused("gate y", "2 UnknownGate", "y")
        self.check_refused("at k gate y", "2 UnknownGate", "y")

    def test_moments(self) -> None:
        for line in ("value y 41", "next y 41", "prev y 41", "seek y 41 0", "why y 41", "reach y 41", "window y 0 41", "window y 50 41", "window y 41 41 3"):
            self.check_refused(line, "11 TimeTooLarge", "41")
            self.check_refused(f"at k {line}", "11 TimeTooLarge", "41")
        # TO is there, and FROM comes after it.
        for line in ("window y 12 11", "window y 12 0 7"):
            self.check_refused(line, "11 TimeTooLarge", "12")

    def test_held_names(self) -> None:
        for line in ("free q", "at q vcd", "at q value y 41", "diff q", "at k diff q", "at q diff k", "at q diff r"):
            self.check_refused(line, "18 UnknownHold", "q")


class Batches(Words):
    def test_a_commit_names_the_word_of_its_edit(self) -> None:
        # The third edit is refused; the second one drops the net that it reads.
        lines = ("begin", "net n wire", "fault dropnet n", "gate h buf 1 1 y n", "stim q 0 1")
        kept = "ok 1\n" * len(lines)
        self.assertEqual(self.ask(*lines, "fault commit", "fault commit", "nets"), f"{kept}no 1 UnknownNet n\nno 19 NoBatch\na wire\nb wire\ny wire\nz wire\nok 1\n")
        # Without the word it is asked for it says none, though edits were kept by `fault`.
        self.assertEqual(self.ask("begin", "fault unstim a 7", "commit", "wave a"), "ok 1\nok 1\nno 12 NoSuchPoint\n0 1\nok 1\n")

    def test_its_edits_are_carried_out(self) -> None:
        self.assertEqual(self.ask("fault begin", "fault net n wire", "input p", "fault commit", "fault inputs"), "ok 1\n" * 3 + "ok 2\na wire\nb wire\np wire\nok 2\n")
        self.assertEqual(self.ask("fault begin", "net n wire", "fault abort", "fault hold s", "fault at s value a 0", "fault free s"), "ok 1\n" * 4 + "1\nok 1\nok 1\n")

    def test_what_has_no_word(self) -> None:
        self.check_refused("commit", "19 NoBatch")
        self.check_refused("abort", "19 NoBatch")
        self.assertEqual(self.ask("begin", "fault begin", "begin"), "ok 1\nno 20 InBatch\nno 20 InBatch\n")

    def test_an_edit_that_a_batch_does_not_keep(self) -> None:
        told = self.ask("begin", *["fault stim a 0 1"] * 4_096, "fault stim a 0 1", "fault net a wire", "fault frob", "fault commit", "fault net a wire")
        full = "no 13 TooMany\n"
        self.assertEqual(told, "ok 1\n" * 4_097 + f"{full}{full}no 16 BadCommand frob\nok 2\nno 3 DuplicateName a\n")


class Limits(Words):
    def test_held_names(self) -> None:
        held = [f"hold h{number}" for number in range(64)]
        told = self.ask(*held, "fault hold h64", "fault hold h3", "fault hold a'", "hold h64")
        self.assertEqual(told, "ok 1\n" * 64 + "no 13 TooMany h64\nno 3 DuplicateName h3\nno 4 BadName a'\nno 13 TooMany\n")

    def test_nets(self) -> None:
        # The 65,536 bits of a vector.
        self.given("module m; wire [65535:0] w; endmodule")
        full = "no 13 TooMany"
        told = self.ask("fault net n wire", "fault input p", "fault net w[7] wire", "dropnet w[0]", "fault input p", "fault net n tri")
        self.assertEqual(told, f"{full} n\n{full} p\nno 3 DuplicateName w[7]\nok 2\nok 3\n{full} n\n")

    def test_a_line_that_is_too_long(self) -> None:
        # `fault` counts: the same line without it may be 4,096 bytes long.
        line = "vcd now".ljust(4_096)
        self.assertEqual(self.ask(line, f"fault {line}", f"fault {line[:4090]}"), "no 16 BadCommand\nno 17 LongLine\nno 16 BadCommand now\n")


class Unreadable(Words):
    def check_unread(self, line: str, word: str = "") -> None:
        self.check_refused(line, "16 BadCommand", word)

    def test_no_command(self) -> None:
        for line, word in (("frob", "frob"), ("Value y 0", "Value"), ("1", "1"), ("at k frob", "frob"), ("at k at k vcd", "at"), ("at k quit", "quit")):
            self.check_unread(line, word)
        # An edit is none where a held version is asked.
        for line, word in (("at k net n wire", "net"), ("at k hold j", "hold"), ("at k begin", "begin"), ("at k gate h and 1 1 y a", "and")):
            self.check_unread(line, word)

    def test_numbers(self) -> None:
        for line, word in (
            ("value y -1", "-1"), ("stim a +1 0", "+1"), ("unstim a 1_0", "1_0"), ("horizon x", "x"), ("window y 0 0x1", "0x1"), ("why y 1.5", "1.5"), ("reach y y", "y"),
            ("delay g 1/2 1", "1/2"), ("delay t 1 2/", "2/"), ("delay t 1 /2", "/2"), ("delay t 1 1/2/3", "1/2/3"), ("gate h and x 1 y a", "x"),
            # No part of a window is a 0, and there are not so many.
            ("window y 0 1 0", "0"), ("window y 0 1 65537", "65537"), ("at k window y 0 1 x", "x"),
        ):  # fmt: skip
            self.check_unread(line, word)

    def test_kinds_values_and_terminals(self) -> None:
        for line, word in (
            ("net n and", "and"), ("kind y Wire", "Wire"), ("type g wire", "wire"), ("gate h nmos 1 1 y a", "nmos"), ("gate h frob", "frob"),
            ("stim a 0 X", "X"), ("seek y 0 1'b1", "1'b1"), ("wire g y a 1'bX", "1'bX"), ("gate h and 1 1 y a' b'", "a'"), ("gate h and 1 1 y 1'b0 1'b2", "1'b2"),
        ):  # fmt: skip
            self.check_unread(line, word)

    def test_the_first_of_two_words(self) -> None:
        for line, word in (("stim a x X", "x"), ("net n and now", "and"), ("gate h nmos x 1 y a'", "nmos"), ("frob \u00e9", "frob"), ("seek y 0 1 2 3", "2"), ("window y x", "x")):
            self.check_unread(line, word)
        # Nothing is looked for in the design before a line is read.
        for line, word in (("value q x", "x"), ("at q frob", "frob"), ("gate g and 0 0 q q'", "q'"), ("free q now", "now")):
            self.check_unread(line, word)

    def test_one_word_too_many(self) -> None:
        for line in ("vcd", "wave y", "value y 0", "seek y 0 1", "window y 0 1 2", "nets", "gate g", "drivers y", "points a", "why y 0", "reach y 0", "diff k"):
            if line != "gate g":
                self.check_unread(f"{line} now", "now")
            self.check_unread(f"at k {line} now", "now")
        for line in ("net n wire", "input n", "dropnet a", "drop g", "delay g 1 2", "type g and", "stim a 0 1", "horizon 5", "begin", "commit", "abort", "hold n", "free k", "quit"):
            self.check_unread(f"{line} 1", "1")

    def test_a_word_that_is_missing(self) -> None:
        for line in ("value", "value y", "wave", "seek y 0", "net", "net n", "gate", "gate h and", "gate h and 1 1", "wire g", "delay g 1", "stim a 0", "horizon", "hold", "free", "window y 0", "why y", "reach", "diff", "at", "at k", "at k value y", "at k diff", "at k gate"):
            self.check_unread(line)
        self.assertEqual(self.ask("fault", " fault ", "fault\t"), "no 16 BadCommand\n" * 3)

    def test_a_byte_that_no_word_has(self) -> None:
        for line in ("\u00e9", "vcd\x7f", "value y\x01 0", "value y 0 \x80", "at \x80 vcd", "net n\x0bwire", "gate h and 1 1 y a\x7f"):
            self.check_unread(line)

    def test_a_second_fault(self) -> None:
        for line in ("at k fault", "at k fault vcd", "at k fault frob"):
            self.check_unread(line)
        self.assertEqual(self.ask("fault fault", "fault fault vcd", "fault fault frob", "fault fault fault vcd"), "no 16 BadCommand\n" * 4)

    def test_its_word_may_be_a_name(self) -> None:
        self.assertEqual(self.ask("fault net fault wire", "fault value fault 0", "fault hold fault", "fault at fault wave fault", "fault net fault tri"), "ok 2\nz\nok 2\nok 2\n0 z\nok 2\nno 3 DuplicateName fault\n")


class Lines(Words):
    def test_it_does_what_the_line_does(self) -> None:
        # y falls at 3 by g; what follows `quit` gets no reply.
        told = self.ask("fault value y 3", "fault why y 3", "fault stim b 5 0", "fault wave b", "fault  quit", "fault frob", "vcd")
        self.assertEqual(told, "0\nok 1\ng 0 a 1 b 1\nok 1\nok 2\n0 1\n5 0\nok 2\nok 2\n")

    def test_blanks_and_tabs_part_its_words(self) -> None:
        self.assertEqual(self.ask(" fault\tvalue  y \t0\r", "\tfault  frob\tvcd"), "x\nok 1\nno 16 BadCommand frob\n")

    def test_what_is_skipped_begins_with_a_mark(self) -> None:
        self.assertEqual(self.ask("# fault frob", "#fault frob", "fault #"), "no 16 BadCommand #\n")


if __name__ == "__main__":
    unittest.main()
