"""Replies from the bytes of the program."""
import unittest

from gatebench import BadReply, Refused
from gatebench.replies import Reply, ReplyReader

TEXT = b"ok 1\n0 x\n2 1\nok 2\nno 16 BadCommand\nnone\nok 2\n"
WANTED = [
    Reply((), "ok 1"),
    Reply(("0 x", "2 1"), "ok 2"),
    Reply((), "no 16 BadCommand"),
    Reply(("none",), "ok 2"),
]


class Replies(unittest.TestCase):
    def test_the_replies_of_a_text(self) -> None:
        self.assertEqual(ReplyReader().feed(TEXT), WANTED)

    def test_the_pieces_in_which_it_is_read_change_nothing(self) -> None:
        for size in (1, 2, 3, 7):
            reader, found = ReplyReader(), []
            for at in range(0, len(TEXT), size):
                found += reader.feed(TEXT[at : at + size])
            self.assertEqual(found, WANTED)

    def test_a_refusal_has_a_code_and_a_name(self) -> None:
        refusal = WANTED[2]
        self.assertEqual((refusal.is_ok, refusal.code, refusal.name), (False, 16, "BadCommand"))
        with self.assertRaises(Refused) as caught:
            refusal.version("wibble")
        self.assertEqual((caught.exception.code, caught.exception.name), (16, "BadCommand"))
        self.assertEqual(caught.exception.command, "wibble")
        self.assertTrue(str(caught.exception).startswith("no 16 BadCommand: wibble: `wibble`: the line is no command: an unknown word"))
        self.assertEqual(str(Refused(99, "Other", "wibble")), "no 99 Other: wibble")

    def test_a_refusal_may_name_the_word_at_fault(self) -> None:
        refusal = Reply((), "no 1 UnknownNet yy")
        self.assertEqual((refusal.code, refusal.name, refusal.word, WANTED[2].word, WANTED[0].word), (1, "UnknownNet", "yy", None, None))
        with self.assertRaises(Refused) as caught:
            refusal.version("gate g and 1 1 y a yy")
        self.assertEqual(caught.exception.word, "yy")

    def test_an_answer_has_a_version_and_no_code(self) -> None:
        self.assertEqual((WANTED[1].version("wave y"), WANTED[1].code, WANTED[1].name), (2, 0, ""))

    def test_an_end_without_a_number_is_no_reply(self) -> None:
        for end in ("ok ", "ok one", "no "):
            with self.assertRaises(BadReply):
                Reply((), end).version("commit")

    def test_an_answer_of_one_line(self) -> None:
        self.assertEqual(WANTED[3].one_line("next y 3"), "none")
        for reply in WANTED[:2]:
            with self.assertRaises(BadReply):
                reply.one_line("value y 3")
