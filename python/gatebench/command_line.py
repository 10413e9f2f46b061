"""The commands of `python -m gatebench`: their words, what they print and their statuses."""
import argparse
import os
import sys
from typing import List, Optional, Sequence

from . import script
from .campaigns import command as campaigns
from .check import Report, check_files
from .draw_svg import draw_svg
from .draw_text import ASCII, UNICODE, draw_text
from .dump import Dump
from .errors import GatebenchError
from .importing import command as import_command
from .junit import junit_of
from .near import near, there_is
from .picture import Picture, window
from .progress import Line
from .script import BadLine, BadStep, Opening, read_script
from .session import TIMEOUT, Session
from .started import started
from .version import __version__
from .viewing import command as viewing
from .wave import Wave
from .wavedrom import wavedrom

# Statuses: all is well; something failed; ended by an interrupt, or since nobody reads what it prints, as shells say it; argparse
# has its own for wrong words.
WELL, FAILED, INTERRUPTED, UNREAD = 0, 1, 130, 141
WRONG_WORDS = 2


def main(words: Sequence[str]) -> int:
    """Carries out the words of a command line, and gives the exit status."""
    if not words:
        reader().print_help(sys.stderr)
        return WRONG_WORDS
    options = reader().parse_args(words)
    try:
        status = TASKS[options.task](options)
        sys.stdout.flush()
        return status
    except BrokenPipeError:
        # Who reads what is printed wants no more of it, and what is left goes nowhere.
        os.dup2(os.open(os.devnull, os.O_WRONLY), sys.stdout.fileno())
        return UNREAD
    except BadLine as bad:
        return fail(options, f"{options.commands}:{bad.number}: expected {bad.wanted}, got {bad.line.strip()}")
    except BadStep as bad:
        return fail(options, f"{options.commands}:{bad.number}: {bad.message}")
    except (GatebenchError, DrawError, OSError) as error:
        return fail(options, str(error))
    except KeyboardInterrupt:
        fail(options, "interrupted")
        return INTERRUPTED


def run() -> None:
    """The console script."""
    sys.exit(main(sys.argv[1:]))


def fail(options: argparse.Namespace, message: str) -> int:
    print(f"gatebench {options.task}: {message}", file=sys.stderr)
    return FAILED


def reader() -> argparse.ArgumentParser:
    top = argparse.ArgumentParser(prog="python -m gatebench", description="Scripts and pictures for gatebench.")
    top.add_argument("--version", action="version", version=f"gatebench package {__version__}")
    tasks = top.add_subparsers(dest="task", required=True)
    add_check(tasks.add_parser("check", help="run files of commands with what they expect"))
    add_draw(tasks.add_parser("draw", help="draw waves as text or as an SVG picture"))
    faults = tasks.add_parser("faults", help="find which stuck-at faults the stimulus of a design shows")
    campaigns.add_faults(faults)
    add_program(faults)
    sweep = tasks.add_parser("sweep", help="try other delays or other stimulus")
    campaigns.add_sweep(sweep)
    add_program(sweep)
    view = tasks.add_parser("view", help="show the waves on a page, where edges and delays can be dragged")
    viewing.add_words(view)
    add_program(view)
    import_command.add_words(tasks.add_parser("import", help="make a text for gatebench of a netlist of another tool"))
    return top


def add_program(to: argparse.ArgumentParser) -> None:
    to.add_argument("--horizon", type=int, metavar="H", help="the last moment that is simulated")
    to.add_argument("--delay", type=int, metavar="D", help="the delay of gates that the text writes without one")
    to.add_argument("--program", metavar="PATH", help="the program gatebench; else $GATEBENCH, bin/gatebench, the PATH")
    to.add_argument(
        "--timeout", type=float, default=TIMEOUT, metavar="S", help="seconds without an answer (default %(default)g)"
    )


def add_check(to: argparse.ArgumentParser) -> None:
    to.description = script.__doc__
    to.formatter_class = argparse.RawDescriptionHelpFormatter
    to.add_argument("files", nargs="+", metavar="FILE", help="a file of commands")
    to.add_argument("--design", default="", metavar="DESIGN", help="the design of files that name none")
    to.add_argument("--junit", metavar="FILE", help="write the results to FILE as JUnit XML")
    to.add_argument("-j", "--jobs", type=campaigns.positive, default=1, metavar="N", help="how many files run at a time")
    to.epilog = (
        "Status: 0 where all is met, 1 where something is not, 2 for a wrong command line, 3 where a file or a design can't be "
        "read or is none, 4 where there is no program or it ended early."
    )
    add_program(to)


def add_draw(to: argparse.ArgumentParser) -> None:
    to.add_argument("design", metavar="DESIGN", help="the design text")
    to.add_argument("commands", nargs="?", metavar="COMMANDS", help="a file of commands, carried out before")
    to.add_argument("--nets", nargs="+", action="extend", metavar="NET", help="the nets to draw, in order (default: all)")
    to.add_argument("--from", dest="start", type=int, default=0, metavar="T", help="the first moment (default 0)")
    to.add_argument("--to", dest="end", type=int, metavar="T", help="the last moment (default: the horizon)")
    to.add_argument("--svg", metavar="FILE", help="write an SVG picture to FILE, and no text")
    to.add_argument("--wavedrom", metavar="FILE", help="write WaveDrom's JSON to FILE, and no text")
    to.add_argument("--before", metavar="K", help="draw the version held under K behind, and shade what differs")
    to.add_argument("--ascii", action="store_true", help="draw with ASCII characters alone")
    to.add_argument("--width", type=int, metavar="N", help="the columns of the text (default: the terminal's)")
    add_program(to)


def check(options: argparse.Namespace) -> int:
    default = Opening(options.design, options.horizon, options.delay)
    reports: List[Report] = []
    progress = Line(len(options.files), "files")
    for report in check_files(options.files, default, options.program, options.timeout, options.jobs):
        reports.append(report)
        progress.close()
        for line in report.lines():
            print(line, flush=True)
        progress.update()
    progress.close()
    if options.junit:
        with open(options.junit, "wb") as file:
            file.write(junit_of(reports))
    print(summary(reports))
    return max(it.outcome for it in reports)


def summary(reports: List[Report]) -> str:
    counts = {
        "files": len(reports),
        "commands": sum(len(it.steps) for it in reports),
        "expectations": sum(it.expectations for it in reports),
        "failures": sum(len(it.failures()) for it in reports),
    }
    return ", ".join(f"{what}: {count}" for what, count in counts.items())


class DrawError(Exception):
    """Something can't be drawn."""


def draw(options: argparse.Namespace) -> int:
    def open_session() -> Session:
        return Session(
            options.design, horizon=options.horizon, delay=options.delay, program=options.program, timeout=options.timeout
        )

    session, _ = started(open_session, read_script(options.commands).steps if options.commands is not None else [])
    with session:
        before = session.at(options.before).dump() if options.before else None
        nets = [session.names.net(it) for it in options.nets or ()]
        picture = picture_of(session.dump(), nets, options.start, options.end, before)
    if options.svg:
        write(options.svg, draw_svg(picture))
    if options.wavedrom:
        write(options.wavedrom, wavedrom(picture))
    if not (options.svg or options.wavedrom):
        width = options.width or terminal_width()
        sys.stdout.write(draw_text(picture, width, ASCII if options.ascii or not is_unicode() else UNICODE))
    return WELL


def write(path: str, text: str) -> None:
    with open(path, "w", encoding="utf-8", newline="\n") as file:
        file.write(text)


def picture_of(
    dump: Dump, nets: Optional[Sequence[str]], start: int, end: Optional[int], before: Optional[Dump]
) -> Picture:
    waves = [wave_of(dump, net) for net in nets or dump.waves]
    others = [before.waves[it.net] for it in waves if it.net in before.waves] if before else []
    try:
        return window(waves, dump.unit, dump.horizon, start, dump.horizon if end is None else end, others)
    except ValueError as error:
        raise DrawError(str(error)) from None


def wave_of(dump: Dump, net: str) -> Wave:
    if net not in dump.waves:
        raise DrawError(f"no net is named {net}{there_is(near(net, list(dump.waves)))}")
    return dump.waves[net]


def terminal_width() -> int:
    try:
        return os.get_terminal_size(sys.stdout.fileno()).columns
    except OSError:
        return 100


def is_unicode() -> bool:
    """Whether standard output can show the signs of waves."""
    try:
        "".join(UNICODE.values.values()).encode(sys.stdout.encoding or "ascii")
    except UnicodeEncodeError:
        return False
    return True


TASKS = {"check": check, "draw": draw, "import": import_command.run, "faults": campaigns.faults, "sweep": campaigns.sweep, "view": viewing.run}
