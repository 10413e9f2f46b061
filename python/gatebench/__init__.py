"""Drives gatebench, a proved gate-level logic simulator, from Python.

    from gatebench import Session

    with Session("m.v", horizon=40) as session:
        with session.batch() as batch:
            batch.stim("a", 0, 0)
            batch.stim("a", 10, 1)
        print(session.wave("y").pulses(shorter_than=3))

`python -m gatebench check` runs files of commands with what they expect, `draw` draws waves, `faults` and `sweep` run many
what-ifs over a design.
docs/scripts.md of the repository is the page for it, and docs/SPEC.md has the rules."""
from .bus import Bus, BusChange
from .difference import Difference, Differences, diff
from .draw_svg import draw_svg
from .draw_text import draw_text
from .dump import Dump, dump_of
from .edits import Batch
from .errors import (
    BadReply,
    BatchRefused,
    Closed,
    DesignRefused,
    GatebenchError,
    NoReply,
    ProgramEnded,
    ProgramMissing,
    QuestionMissing,
    Refused,
    TimedOut,
)
from .netlist import Gate, Netlist, netlist_of, read_netlist
from .origins import Effect, Origin, Turn
from .picture import Picture, window
from .program import program_path
from .questions import Questions
from .replies import Reply
from .rules import Violation, equal_at, no_pulse, one_hot, setup_and_hold, stable
from .session import Held, Session
from .values import Change, constant
from .vcd_stimulus import stimulus_of_vcd
from .version import __version__
from .wave import Edge, Pulse, Wave
from .wavedrom import wavedrom

__all__ = [
    "BadReply",
    "Batch",
    "BatchRefused",
    "Bus",
    "BusChange",
    "Change",
    "Closed",
    "DesignRefused",
    "Difference",
    "Differences",
    "Dump",
    "Edge",
    "Effect",
    "Gate",
    "GatebenchError",
    "Held",
    "Netlist",
    "NoReply",
    "Origin",
    "Picture",
    "ProgramEnded",
    "ProgramMissing",
    "Pulse",
    "QuestionMissing",
    "Questions",
    "Refused",
    "Reply",
    "Session",
    "TimedOut",
    "Turn",
    "Violation",
    "Wave",
    "__version__",
    "constant",
    "diff",
    "draw_svg",
    "draw_text",
    "dump_of",
    "equal_at",
    "netlist_of",
    "no_pulse",
    "one_hot",
    "program_path",
    "read_netlist",
    "setup_and_hold",
    "stable",
    "stimulus_of_vcd",
    "wavedrom",
    "window",
]
