"""What the tests of edits, waves, dumps and changes share: a design that the lines of a session make, and what it is asked.

The lines that make a design, or those of a commit, are one text with a semicolon between two of them:

    input a; net y wire; gate g buf 3 3 y a; stim a 0 0; horizon 30

A wave is written as the name of its net and its changes, as `y 0:x 3:0`, and several lines of a reply with a slash between two
of them."""
from typing import List, Sequence

from .support import WithTool

# A design without anything.
EMPTY = "module m; endmodule"

# As many edits as a batch may keep.
MOST_EDITS = 4_096


def lines_of(text: str) -> List[str]:
    """The lines of a text of such lines."""
    return text.split("; ") if text else []


def batch(lines: Sequence[str]) -> List[str]:
    """What commits these edits as one."""
    return ["begin", *lines, "commit"]


def batches(lines: Sequence[str]) -> List[str]:
    """What commits these edits, so many at a time as a batch may keep."""
    return [line for at in range(0, len(lines), MOST_EDITS) for line in batch(lines[at : at + MOST_EDITS])]


class WithDesigns(WithTool):
    """A test of designs that are made line by line."""

    maxDiff = None

    def replies_to(self, lines: Sequence[str], text: str = EMPTY) -> List[List[str]]:
        """What gatetool answers each of these lines: the lines of its reply."""
        ended = self.run_with([self.write("design.v", text), "--horizon=0"], "".join(f"{line}\n" for line in lines))
        self.assertEqual((ended.status, ended.said), (0, ""))
        replies: List[List[str]] = [[]]
        for said in ended.printed.splitlines():
            replies[-1].append(said)
            if said.startswith(("ok ", "no ")):
                replies.append([])
        self.assertEqual((len(replies), replies[-1]), (len(lines) + 1, []))
        return replies[:-1]

    def behind(self, first: Sequence[str], lines: Sequence[str]) -> List[List[str]]:
        """What gatetool answers these lines, which come behind those of a design; where it has any, one commit makes it."""
        made = batch(first)
        replies = self.replies_to([*made, *lines])
        self.assertEqual(replies[: len(made)], [["ok 0"]] * (len(made) - 1) + [["ok 1"]])
        return replies[len(made) :]

    def check_waves(self, first: Sequence[str], waves: Sequence[str]) -> None:
        """Nets of the design, whose last line is its horizon, have these waves up to there."""
        end = int(first[-1].split()[1])
        for wave in waves:
            net, *changes = wave.split()
            replies = self.behind(first, [f"wave {net}", f"value {net} {end}", f"value {net} {end + 1}"])
            shown = [change.replace(":", " ") for change in changes]
            self.assertEqual(replies, [[*shown, "ok 1"], [shown[-1].split()[1], "ok 1"], ["no 11 TimeTooLarge"]])

    def shown_behind(self, first: Sequence[str], lines: Sequence[str]) -> str:
        """All nets with their points, all gates and the horizon of the design behind these lines."""
        made = [*batch(first), *lines]
        nets, inputs, gates, dump = (reply[:-1] for reply in self.replies_to([*made, "nets", "inputs", "gates", "vcd"])[-4:])
        points = self.replies_to([*made, *(f"points {net.split()[0]}" for net in inputs)])[len(made) :]
        told = {net: [point.replace(" ", ":") for point in reply[:-1]] for net, reply in zip(inputs, points)}
        shown = [" ".join(["input", net, *told[net]]) if net in told else f"net {net}" for net in nets]
        moments = [line[1:] for line in dump if line.startswith("#")]
        return " / ".join([*shown, *(f"gate {gate}" for gate in gates), f"horizon {moments[-1]}"])

    def check_reply(self, first: Sequence[str], line: str, cause: str) -> None:
        """The line behind the design is refused for this cause, and makes no version, or is accepted where there is none; the
        same as the only edit of a commit."""
        last = [f"no {cause}", "ok 1"] if cause else ["ok 2", "ok 2"]
        self.assertEqual(self.behind(first, [line, "hold k"]), [[said] for said in last], line)
        self.assertEqual(self.behind(first, [*batch([line]), "hold k"]), [[said] for said in ("ok 1", "ok 1", *last)], line)
