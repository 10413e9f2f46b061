"""What the tests of sessions share: a talk with the built program, line by line."""
from typing import List, Tuple, Union

from ..support import Ended, WithTool

# A line, and the lines of the reply to it.
Talk = List[Tuple[str, ...]]

# A design without anything, and a buffer of the delays 3 and 3.
EMPTY = "module m; endmodule"
BUFFER = "module m(a,y); input a; output y; buf #(3,3) g(y,a); endmodule"


class WithTalks(WithTool):
    """A test of sessions."""

    maxDiff = None

    def check_replies(self, design: str, commands: Union[str, bytes], replies: str, *words: str, tools: bool = False) -> None:
        """These commands get these replies, by gatetool where tools are meant and else by gatebench, with these words behind it."""
        run = self.run_with if tools else self.as_gatebench
        ended = run([self.write("design.v", design), *words], commands)
        self.assertEqual(ended.printed, replies)
        self.assertEqual(ended, Ended(0, replies, ""))

    def check_talk(self, design: str, talk: Talk, *words: str, tools: bool = False) -> None:
        """Each line gets its reply. A character of a line is the byte of its number."""
        commands = "".join(f"{line}\n" for line, *_ in talk).encode("latin-1")
        replies = "".join(f"{said}\n" for _, *reply in talk for said in reply)
        self.check_replies(design, commands, replies, *words, tools=tools)
