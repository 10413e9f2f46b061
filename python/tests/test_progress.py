"""Progress on a terminal, and none elsewhere."""
import contextlib
import io
import unittest

from gatebench.progress import Line, bar


class Terminal(io.StringIO):
    def isatty(self) -> bool:
        return True


class Lines(unittest.TestCase):
    def shown(self, stream: io.StringIO) -> str:
        """What a line of three files puts there when one is done, and then two more at once."""
        with contextlib.redirect_stderr(stream):
            line = Line(3, "files")
            line.update()
            line.update(2)
            line.close()
        return stream.getvalue()

    def test_a_terminal_has_one_line_that_goes_away(self) -> None:
        self.assertEqual(self.shown(Terminal()), "\r\033[K1 of 3 files\r\033[K3 of 3 files\r\033[K")

    def test_a_file_has_none(self) -> None:
        self.assertEqual(self.shown(io.StringIO()), "")

    def test_a_bar_of_any_library_shows_nothing_in_a_file(self) -> None:
        stream = io.StringIO()
        with contextlib.redirect_stderr(stream):
            shown = bar(5, "what-ifs", 2)
            shown.update(3)
            shown.close()
        self.assertEqual(stream.getvalue(), "")


if __name__ == "__main__":
    unittest.main()
