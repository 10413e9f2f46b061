"""Errors that come through from other processes, files that are not there, and sessions that nobody has any more."""
import concurrent.futures
import gc
import os
import pickle
import unittest
from typing import Callable, List, Optional, Sequence, Tuple

from gatebench import BadReply, BatchRefused, Closed, DesignRefused, GatebenchError, NoReply, ProgramEnded, Refused, Session, TimedOut
from gatebench.asked import FAULT, PROBES
from gatebench.fault_word import FaultWord
from gatebench.replies import Reply

from .support import INVERTER, WithFolder


def delay_of_nothing(text: str) -> int:
    """What a worker of a pool does: it is refused."""
    with Session(text=text) as session:
        return session.delay("h", 1, 1)


class Pickles(unittest.TestCase):
    def test_each_error_says_and_has_the_same(self) -> None:
        no_reply = NoReply("not all")
        no_reply.replies = [Reply((), "ok 1")]
        errors = [
            GatebenchError("something"),
            Refused(2, "UnknownGate", "drop h", near=("g",)),
            BatchRefused(5, "ZeroDelay", "delay g 0 1", 3),
            DesignRefused("m.v", 4, 2, "Syntax", "wire a"),
            DesignRefused("m.v", 4, 3, "Unsupported", "assign a = b;", FaultWord("assign", 4, 1)),
            ProgramEnded(3, "out of memory\n"),
            TimedOut(1.5),
            Closed("the session was closed"),
            BadReply("no reply"),
            no_reply,
        ]
        for error in errors:
            again = pickle.loads(pickle.dumps(error))
            self.assertEqual((type(again), str(again), vars(again)), (type(error), str(error), vars(error)))

    def test_a_refusal_comes_through_from_a_pool_of_processes(self) -> None:
        with concurrent.futures.ProcessPoolExecutor(1) as pool:
            with self.assertRaises(Refused) as caught:
                pool.submit(delay_of_nothing, INVERTER).result()
        self.assertEqual((caught.exception.code, caught.exception.command), (2, "delay h 1 1"))


# The words that a program says where the line leaves open which is at fault.
SAID = {"gate h and 1 1 y a q": "q", "stim a 3 X": "X", "net n wier": "wier", "type g nort": "nort", "delay g nort 1": "nort"}
# And that of the edit for which a commit is refused.
OF_EDIT = {"commit": "q"}


class SayingSession(Session):
    """A session of a program that says the word at fault, or is taken for one. `faults` are the lines that ask for it."""

    faults: List[str] = []

    def knows(self, questions: str) -> bool:
        return questions == FAULT or super().knows(questions)

    def ask(self, lines: Sequence[str]) -> List[Reply]:
        if lines[:1] and lines[0].startswith("fault ") and lines[0] != PROBES[FAULT]:
            self.faults = [*self.faults, *lines]
            line = lines[0][6:]
            [reply] = super().ask([line])
            word = {**SAID, **OF_EDIT}.get(line) if reply.code not in (0, 19) else None
            return [reply._replace(end=f"{reply.end} {word}") if word else reply]
        return super().ask(lines)


class CommandWords(unittest.TestCase):
    def test_the_word_at_fault_where_no_other_may_be_meant(self) -> None:
        with Session(text=INVERTER, horizon=20) as session:
            session.hold("k")
            for line, code, word in (
                ("wave q", 1, "q"),
                ("at k value q 3", 1, "q"),
                ("stim q 3 1", 1, "q"),
                ("gate h and 1 1 y a q", 1, None),
                ("delay h 1 1", 2, "h"),
                ("net y wire", 3, "y"),
                ("hold k", 3, "k"),
                ("input u..v", 4, "u..v"),
                ("gate h not 0 1 y a", 5, "0"),
                ("delay g 1 2/0", 5, "0"),
                ("delay g 0000000000000000000000000001 00", 5, "0"),
                ("gate h not 1 1000001 y a", 6, "1000001"),
                ("gate h not 1 1 y a a", 7, "not"),
                ("type g bufif1", 7, "bufif1"),
                ("wire g y a a", 7, "g"),
                ("wire g a y", 8, "a"),
                ("gate h not 1 1 a y", 8, "a"),
                ("stim y 3 1", 9, "y"),
                ("dropnet y", 10, "y"),
                ("value y 21", 11, "21"),
                ("horizon 1099511627777", 11, "1099511627777"),
                ("value y 00021", 11, "21"),
                ("horizon 99999999999999999999", 11, "18446744073709551615"),
                ("unstim a 4", 12, "4"),
                ("wibble", 16, "wibble"),
                ("at k wibble", 16, "wibble"),
                ("stim a 3 X", 16, None),
                ("free j", 18, "j"),
                ("at j wave y", 18, "j"),
                ("commit", 19, None),
                ("delay g 1 2/03", 21, "3"),
                ("gate h not 1 1/2 y a", 21, "2"),
            ):
                with self.assertRaises(Refused, msg=line) as caught:
                    session.command(line)
                # Where the line leaves it open a program may say it.
                said = SAID.get(line) if session.knows(FAULT) else None
                self.assertEqual((caught.exception.code, caught.exception.word), (code, word or said), line)

    def test_a_word_that_the_program_says_is_taken_over(self) -> None:
        with SayingSession(text=INVERTER, horizon=20) as session:
            cases: Tuple[Tuple[Callable[[], object], Optional[str], List[str]], ...] = (
                (lambda: session.gate("h", "and", 1, 1, "y", "a", "q"), "q", ["fault gate h and 1 1 y a q"]),
                (lambda: session.command("stim a 3 X"), "X", ["fault stim a 3 X"]),
                (lambda: session.command("net n wier"), "wier", ["fault net n wier"]),
                # It is asked at once, since the batch is over then; of one that there is not it is asked twice.
                (lambda: session.edits(["input b", "gate h and 1 1 y a q"]), "q", ["fault commit"]),
                (lambda: session.edits(["input b", "stim a 3 X"]), "X", ["fault stim a 3 X"]),
                (lambda: session.commit(), None, ["fault commit", "fault commit"]),
                (lambda: session.wave("q"), "q", ["fault wave q"]),
                (lambda: session.at("j").value("y", 0), "j", ["fault at j value y 0"]),
            )
            for ask, word, asked in cases:
                session.faults = []
                with self.assertRaises(Refused) as caught:
                    ask()
                self.assertEqual((caught.exception.word, session.faults), (word, asked))
            self.assertEqual((session.value("y", 0), session.nets()), ("x", ["a", "y"]))

    def test_names_like_the_word_that_the_program_says(self) -> None:
        with SayingSession(text=INVERTER, horizon=20) as session:
            for line, wanted in (("net n wier", ("wire",)), ("type g nort", ("not", "nor", "xnor")), ("delay g nort 1", ()), ("stim a 3 X", ()), ("wibble wire", ("wire",)), ("qwerty", ())):
                with self.assertRaises(Refused) as caught:
                    session.command(line)
                self.assertEqual(caught.exception.near, wanted, line)

    def test_the_word_of_the_edit_for_which_a_batch_of_the_program_is_refused(self) -> None:
        with SayingSession(text=INVERTER, horizon=20) as session:
            session.begin()
            session.gate("h", "and", 1, 1, "y", "a", "q")
            with self.assertRaises(Refused) as caught:
                session.commit()
            self.assertEqual((caught.exception.command, caught.exception.word), ("commit", "q"))

    def test_it_is_said_before_what_the_code_means(self) -> None:
        self.assertEqual(str(Refused(1, "UnknownNet", "at k wave q")), "no 1 UnknownNet: at k wave q: `q`: no net has this name")
        self.assertEqual(str(Refused(19, "NoBatch", "commit")), "no 19 NoBatch: commit: there is no batch to end")

    def test_what_words_a_command_has_is_said(self) -> None:
        for line, said in (
            ("stim a 3", "; it is `stim N T V`"),
            ("gate h", "; it is `gate G KIND R F OUT IN..`"),
            ("at k value y", "; it is `value N T`"),
            ("at k stim y 3 1", "; it is `at K LINE`"),
            ("at k", "; it is `at K LINE`"),
            ("wibble", "can't be read"),
        ):
            self.assertTrue(str(Refused(16, "BadCommand", line)).endswith(said), line)
        self.assertNotIn("it is", str(Refused(2, "UnknownGate", "drop h")))


class Files(WithFolder):
    def test_a_file_that_can_not_be_read_is_named(self) -> None:
        missing = os.path.join(self.folder, "missing.v")
        with self.assertRaises(FileNotFoundError) as caught:
            Session(missing)
        self.assertEqual(caught.exception.filename, missing)
        with self.assertRaises(IsADirectoryError):
            Session(self.folder)

    def test_a_design_may_come_through_a_pipe(self) -> None:
        path = os.path.join(self.folder, "pipe")
        os.mkfifo(path)
        writer = os.fork()
        if not writer:
            with open(path, "w", encoding="ascii") as pipe:
                pipe.write(INVERTER)
            os._exit(0)
        with Session(path, horizon=20) as session:
            self.assertEqual(session.value("y", 0), "x")
        os.waitpid(writer, 0)


class Forgotten(unittest.TestCase):
    def test_a_session_that_nobody_has_ends_its_program(self) -> None:
        session = Session(text=INVERTER)
        self.assertEqual(repr(session), "<Session of the text>")
        process = session._channel._process
        del session
        gc.collect()
        self.assertIsNotNone(process.returncode)

    def test_a_session_that_was_closed_says_so(self) -> None:
        session = Session(text=INVERTER)
        session.close()
        self.assertEqual(repr(session), "<Session of the text, ended>")


if __name__ == "__main__":
    unittest.main()
