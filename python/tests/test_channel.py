"""A program that answers badly, or not at all, is an exception and never a hang."""
import os
import time

from gatebench import BadReply, Closed, DesignRefused, ProgramEnded, ProgramMissing, Session, TimedOut

from .support import INVERTER, WithFolder


class BadPrograms(WithFolder):
    def session(self, body: str, timeout: float = 60.0) -> Session:
        """A session with this program. It may take longer to start, on a busy machine, than the timeout from then on."""
        session = Session("m.v", program=self.stand_in(body))
        self.addCleanup(session.kill)
        session._channel._timeout = timeout
        return session

    def test_a_program_that_dies_in_the_middle(self) -> None:
        session = self.session("answer(4)\nsys.stderr.write('worker lost')\nsys.exit(3)")
        with self.assertRaises(ProgramEnded) as caught:
            session.ask(["commit"] * 10)
        self.assertEqual((caught.exception.status, caught.exception.errors), (3, "worker lost"))
        self.assertEqual(len(caught.exception.replies), 3)
        self.assertIn("status 3: worker lost", str(caught.exception))

    def test_after_its_end_each_command_says_so_again(self) -> None:
        session = self.session("answer(1)\nsys.exit(3)")
        for _ in range(2):
            with self.assertRaises(ProgramEnded) as caught:
                session.command("commit")
            self.assertEqual(caught.exception.status, 3)

    def test_a_program_that_a_signal_ends(self) -> None:
        session = self.session("answer(2)\nos.kill(os.getpid(), 9)")
        with self.assertRaises(ProgramEnded) as caught:
            session.ask(["commit"] * 3)
        self.assertEqual(caught.exception.status, -9)

    def test_a_program_that_dies_in_the_middle_of_a_reply(self) -> None:
        session = self.session("answer(1)\nanswer(1, b'0 x\\n2 1\\nok')\n")
        with self.assertRaises(ProgramEnded) as caught:
            session.ask(["wave y"])
        self.assertEqual((caught.exception.status, caught.exception.replies), (0, []))

    def test_a_program_that_answers_nothing(self) -> None:
        since = time.monotonic()
        with self.assertRaises(TimedOut) as caught:
            Session("m.v", program=self.stand_in("time.sleep(60)"), timeout=0.3)
        self.assertEqual(caught.exception.seconds, 0.3)
        self.assertLess(time.monotonic() - since, 50)

    def test_a_program_that_stops_to_answer(self) -> None:
        session = self.session("answer(3)\ntime.sleep(60)", timeout=3)
        with self.assertRaises(TimedOut) as caught:
            session.ask(["commit"] * 5)
        self.assertEqual(len(caught.exception.replies), 2)

    def test_a_program_that_reads_nothing_of_a_long_block(self) -> None:
        session = self.session("answer(1)\ntime.sleep(60)", timeout=0.5)
        with self.assertRaises(TimedOut):
            session.ask(["commit"] * 200_000)

    def test_a_slow_program_is_no_dead_one(self) -> None:
        session = self.session("for _ in range(8): answer(1); time.sleep(0.6)", timeout=4)
        self.assertEqual(len(session.ask(["commit"] * 7)), 7)

    def test_a_program_that_closes_its_output(self) -> None:
        session = self.session("answer(1)\nos.close(1)\ncommands.read()")
        with self.assertRaises(ProgramEnded):
            session.ask(["commit"] * 5)

    def test_a_program_that_closes_its_input(self) -> None:
        session = self.session(
            "answer(1)\nos.close(0)\ntime.sleep(1)\nreplies.write(b'ok 5\\n')\nreplies.flush()\nsys.exit(3)"
        )
        with self.assertRaises(ProgramEnded) as caught:
            session.ask(["commit"] * 20_000)
        self.assertEqual(caught.exception.status, 3)
        self.assertEqual([it.end for it in caught.exception.replies], ["ok 5"])

    def test_200_000_commands_in_one_block_fill_no_pipe(self) -> None:
        # Each reply is longer than its command, and the program writes before it reads on.
        session = self.session("while True: answer(1, b'0 x\\n' * 20 + b'ok 7\\n')")
        replies = session.ask(["wave y"] * 200_000)
        self.assertEqual(len(replies), 200_000)
        self.assertTrue(all(it.end == "ok 7" and len(it.lines) == 20 for it in replies))

    def test_a_program_that_reads_all_before_it_answers(self) -> None:
        session = self.session("answer(1)\nfor _ in range(20_000): commands.readline()\nreplies.write(b'ok 1\\n' * 20_000)")
        self.assertEqual(len(session.ask(["commit"] * 20_000)), 20_000)

    def test_more_replies_than_commands(self) -> None:
        session = self.session("answer(1)\nanswer(1, b'ok 1\\nok 2\\n')\ncommands.read()")
        with self.assertRaises(BadReply):
            session.command("commit")

    def test_an_answer_that_is_none(self) -> None:
        session = self.session("answer(1)\nanswer(1, b'ok yes\\n')\ncommands.read()")
        with self.assertRaises(BadReply):
            session.command("commit")

    def test_an_end_with_another_status(self) -> None:
        session = self.session("answer(1)\ncommands.read()\nsys.exit(3)")
        with self.assertRaises(ProgramEnded) as caught:
            session.close()
        self.assertEqual(caught.exception.status, 3)

    def test_a_program_that_does_not_end(self) -> None:
        session = self.session("answer(1)\ncommands.read()\ntime.sleep(60)", timeout=0.5)
        with self.assertRaises(TimedOut):
            session.close()

    def test_a_program_that_writes_on_at_its_end(self) -> None:
        session = self.session("answer(1)\ncommands.read()\nwhile True: replies.write(b'ok 1\\n')")
        with self.assertRaises(BadReply):
            session.close()

    def test_a_program_that_says_much_on_standard_error(self) -> None:
        session = self.session("sys.stderr.write('e' * 1_000_000)\nsys.stderr.flush()\nanswer(2)\nsys.exit(3)")
        session.command("commit")
        with self.assertRaises(ProgramEnded) as caught:
            session.command("commit")
        self.assertEqual(caught.exception.errors[:3], "eee")

    def test_an_interrupted_exchange_ends_the_session(self) -> None:
        session = self.session("answer(1)\ncommands.readline()\nos.kill(os.getppid(), 2)\ntime.sleep(60)")
        with self.assertRaises(KeyboardInterrupt):
            session.command("commit")
        with self.assertRaises(Closed):
            session.command("commit")


class Starts(WithFolder):
    def test_the_options_of_a_session_are_words_of_the_program(self) -> None:
        program = self.stand_in(
            f"open({os.path.join(self.folder, 'words')!r}, 'w').write(' '.join(sys.argv[1:]))\nanswer(1)\ncommands.read()"
        )
        with Session("m.v", horizon=40, delay=2, workers=3, program=program):
            pass
        self.assertEqual(self.read("words"), "--horizon 40 --delay 2 --workers 3 -- m.v")
        with Session("-m.v", horizon=0, program=program):
            pass
        self.assertEqual(self.read("words"), "--horizon 0 -- -m.v")

    def test_a_text_is_a_file_to_the_program(self) -> None:
        program = self.stand_in("text = open(sys.argv[-1]).read()\nanswer(1)\nanswer(1, text.encode() + b'ok 0\\n')")
        with Session(text="module m;\nendmodule\n", program=program) as session:
            self.assertEqual(session.ask(["vcd"])[0].lines, ("module m;", "endmodule"))

    def test_a_design_that_is_refused(self) -> None:
        program = self.stand_in("sys.stderr.write('line 6: 3 Unsupported\\n')\nsys.exit(1)")
        with self.assertRaises(DesignRefused) as caught:
            Session("m.v", program=program)
        found = caught.exception
        self.assertEqual((found.line, found.code, found.name), (6, 3, "Unsupported"))
        self.assertEqual(str(found), "m.v:6: 3 Unsupported: Verilog that is left out: write gates, or import it")

    def test_a_design_that_is_refused_with_a_second_line(self) -> None:
        design = self.write("m.v", "module m;\n  reg q;\nendmodule\n")
        program = self.stand_in("sys.stderr.write('line 2: 3 Unsupported\\n  word reg, column 3\\n')\nsys.exit(1)")
        with self.assertRaises(DesignRefused) as caught:
            Session(design, program=program)
        found = caught.exception
        self.assertEqual((found.line, found.code, found.name, found.text), (2, 3, "Unsupported", "reg q;"))

    def test_a_program_that_says_something_when_it_starts(self) -> None:
        design = self.write("m.v", "module m;\n  reg q;\nendmodule\n")
        notice = "sys.stderr.write('gatebench: UNPROVED\\n"
        with self.assertRaises(DesignRefused) as caught:
            Session(design, program=self.stand_in(f"{notice}line 2: 3 Unsupported\\n')\nsys.exit(1)"))
        self.assertEqual((caught.exception.line, caught.exception.text), (2, "reg q;"))
        with self.assertRaises(FileNotFoundError):
            Session("no.v", program=self.stand_in(f"{notice}read failed\\n')\nsys.exit(3)"))

    def test_another_end_is_no_refused_design(self) -> None:
        design = self.write("m.v", INVERTER)
        for status, said in ((3, "line 6: 3 Unsupported\n"), (1, "read failed\n"), (3, "out of memory\n")):
            program = self.stand_in(f"sys.stderr.write({said!r})\nsys.exit({status})")
            with self.assertRaises(ProgramEnded) as caught:
                Session(design, program=program)
            self.assertEqual((caught.exception.status, caught.exception.errors), (status, said))

    def test_a_program_that_is_not_there(self) -> None:
        for path in (os.path.join(self.folder, "nobody"), self.folder, self.write("text", "")):
            with self.assertRaises(ProgramMissing):
                Session("m.v", program=path)

    def test_a_session_is_over_a_file_or_a_text(self) -> None:
        for words in ({}, {"design": "m.v", "text": "module m; endmodule"}):
            with self.assertRaises(ValueError):
                Session(**words)  # type: ignore[arg-type]

    def test_a_closed_session_takes_no_command(self) -> None:
        session = Session("m.v", program=self.stand_in("answer(1)\ncommands.read()"))
        session.close()
        session.close()
        with self.assertRaises(Closed):
            session.command("commit")

    def test_a_block_that_raises_ends_the_program(self) -> None:
        program = self.stand_in("answer(1)\ncommands.read()\ntime.sleep(60)")
        since = time.monotonic()
        with self.assertRaises(KeyError):
            with Session("m.v", program=program) as session:
                raise KeyError
        self.assertLess(time.monotonic() - since, 50)
        with self.assertRaises(Closed):
            session.command("commit")
