"""python -m gatebench faults and python -m gatebench sweep."""
import argparse
import os
import signal
from concurrent.futures import Executor, ProcessPoolExecutor
from contextlib import contextmanager
from fnmatch import fnmatchcase
from types import FrameType
from typing import Iterator, List, NamedTuple, Optional, Sequence, Tuple

from ..errors import GatebenchError
from ..names import read_names
from ..netlist import Gate
from ..netlist_edits import Edited, edited_in
from ..netlist_text import Unread
from ..progress import bar
from ..script import Step, read_script
from . import sweeps
from .faults import faults_of
from .judge import Detects, Differs, Judge, NoPulse, Verdict
from .report import as_data, by_module, coverage_of, faults_report, sweep_report
from .results import Campaign, Journal, write_csv, write_json
from .run import Bench, interrupted, run
from .what_if import WhatIf


class Wrong(GatebenchError):
    """A campaign can't be made as its options say."""


class Setting(NamedTuple):
    """What a campaign is over: its design with the stimulus, what is known of it, and its horizon."""

    bench: Bench
    design: Edited
    horizon: int


def positive(text: str) -> int:
    number = int(text)
    if number < 1:
        raise ValueError
    return number


def level(text: str) -> int:
    number = int(text)
    if number < 0:
        raise ValueError
    return number


def numbers(text: str) -> List[int]:
    """FROM:TO or FROM:TO:STEP, both ends included, or one number."""
    first, *rest = map(int, text.split(":"))
    last, step = (rest or [first])[0], rest[1] if len(rest) > 1 else 1
    if first < 1 or last < first or step < 1 or len(rest) > 2:
        raise ValueError
    return list(range(first, last + 1, step))


def add_faults(to: argparse.ArgumentParser) -> None:
    to.description = "Which stuck-at faults of a design does its stimulus show? Each pin and each input is stuck at 0 and at 1."
    add_design(to)
    to.add_argument("--strobe", type=positive, metavar="P", help="compare at the end of each P time units, not at each moment")
    to.add_argument("--depth", type=level, metavar="N", help="count instances below N levels to those that they stand in")
    to.add_argument("--least", type=float, metavar="PERCENT", help="status 1 where the coverage is below this")
    add_running(to)


def add_sweep(to: argparse.ArgumentParser) -> None:
    to.description = "What do other delays or other stimulus change?"
    add_design(to)
    what = to.add_mutually_exclusive_group(required=True)
    what.add_argument("--delays", type=numbers, metavar="FROM:TO[:STEP]", help="each gate by itself takes each of these delays")
    what.add_argument("--scale", type=positive, nargs="+", metavar="PERCENT", help="each gate by itself, its delays at this")
    what.add_argument("--spread", type=positive, metavar="PERCENT", help="all gates at once, by up to this much more or less")
    what.add_argument("--stimulus", type=positive, metavar="P", help="a 0 or a 1 every P at each input without stimulus")
    to.add_argument("--seeds", type=numbers, default="1:10", metavar="FROM:TO", help="seeds of these two (default 1:10)")
    to.add_argument("--no-pulse", type=positive, metavar="W", help="find pulses shorter than W, and not what differs")
    add_running(to)


def add_design(to: argparse.ArgumentParser) -> None:
    to.add_argument("design", metavar="DESIGN", help="the design text")
    to.add_argument("commands", nargs="?", metavar="COMMANDS", help="a file of commands with the stimulus, carried out first")
    to.add_argument("--nets", nargs="+", action="extend", metavar="NET", help="the nets to compare (default: the outputs)")
    to.add_argument("--gates", nargs="+", action="extend", metavar="PATTERN", help="only these gates, as 'u1.*' (default: all)")


def add_running(to: argparse.ArgumentParser) -> None:
    to.add_argument("-j", "--jobs", type=positive, default=1, metavar="N", help="how many processes run (default 1)")
    to.add_argument("--result", metavar="FILE", help="write each result to FILE as it comes, a line of JSON each")
    to.add_argument("--resume", action="store_true", help="go on with the results that FILE has")
    to.add_argument("--json", metavar="FILE", help="write all results to FILE as one JSON document")
    to.add_argument("--csv", metavar="FILE", help="write all results to FILE as CSV")
    to.epilog = "An interrupt ends with status 130; what is done by then is in the file of --result."


def faults(options: argparse.Namespace) -> int:
    setting = setting_of(options)
    seen = setting.design.netlist.outputs + list(setting.bench.nets)
    names = {it.name for it in chosen(setting, options.gates)} if options.gates else None
    what_ifs = [it for it in faults_of(setting.design.netlist, seen) if names is None or is_of(it, names)]
    strobes = range(options.strobe - 1, setting.horizon + 1, options.strobe) if options.strobe else ()
    verdicts = carried_out("faults", options, setting, what_ifs, Detects(tuple(strobes)))
    for line in faults_report(what_ifs, verdicts, options.depth):
        print(line)
    coverage = coverage_of("all", verdicts)
    return 1 if options.least is not None and coverage.percent < options.least else 0


def is_of(fault: WhatIf, gates: "set[str]") -> bool:
    """Whether a fault is one of a pin of these gates: all that it connects anew are among them."""
    return bool(fault.edits) and all(it.split(" ")[1] in gates for it in fault.edits)


def sweep(options: argparse.Namespace) -> int:
    setting = setting_of(options)
    judge: Judge = Differs()
    if options.no_pulse:
        judge = NoPulse(options.no_pulse)
    what_ifs = list(swept(options, setting))
    verdicts = carried_out("sweep", options, setting, what_ifs, judge)
    for line in sweep_report(what_ifs, verdicts):
        print(line)
    return 0


def swept(options: argparse.Namespace, setting: Setting) -> Sequence[WhatIf]:
    gates = chosen(setting, options.gates)
    if options.delays:
        return list(sweeps.each_delay(gates, options.delays))
    if options.scale:
        return list(sweeps.scaled(gates, options.scale))
    if options.spread:
        return list(sweeps.spread(gates, options.spread, options.seeds))
    free = [it for it in setting.design.netlist.inputs if it not in setting.design.driven]
    if not free:
        raise Wrong("each input has stimulus by the commands: leave out that of the inputs that seeds are to drive")
    return list(sweeps.stimuli(free, options.stimulus, setting.horizon, options.seeds))


def chosen(setting: Setting, patterns: Optional[Sequence[str]]) -> List[Gate]:
    """The gates whose names fit one of the patterns."""
    gates = setting.design.netlist.gates
    found = gates if not patterns else [it for it in gates if any(fnmatchcase(it.name, one) for one in patterns)]
    if not found:
        raise Wrong("there is no gate" + (f" {' or '.join(patterns)}" if patterns else ""))
    return found


def setting_of(options: argparse.Namespace) -> Setting:
    """Opens a session once, to see what the commands make of the design."""
    with open(options.design, encoding="utf-8", errors="surrogateescape", newline="") as file:
        text = file.read()
    steps: Tuple[Step, ...] = tuple(read_script(options.commands).steps) if options.commands else ()
    bench = Bench(text, steps, (), options.horizon, options.delay, options.program, options.timeout)
    session, replies = bench.start()
    with session:
        try:
            design = edited_in(session, text, options.delay, [it.line for it in steps], replies)
        except Unread as unread:
            raise Wrong(f"the gates of {options.design} can't be listed: {unread}") from None
        names = read_names(options.design)
        nets = tuple(names.net(it) for it in options.nets or design.netlist.outputs)
        if not nets:
            raise Wrong("the design has no outputs: name the nets to compare by --nets")
        horizon = session.waves(*nets)[nets[0]].horizon
    return Setting(bench._replace(nets=nets), design, horizon)


def carried_out(
    kind: str, options: argparse.Namespace, setting: Setting, what_ifs: Sequence[WhatIf], judge: Judge
) -> List[Verdict]:
    """Runs a campaign with its files, and gives its verdicts in order."""
    if options.resume and not options.result:
        raise Wrong("--resume goes on with the file of --result: name it")
    about = repr((setting.bench._replace(program=None, timeout=None), judge))
    campaign = Campaign(kind, os.path.basename(options.design), what_ifs, about)
    journal = Journal(options.result, campaign, options.resume) if options.result else None
    found = dict(journal.done) if journal else {}
    shown = bar(len(what_ifs), "what-ifs", len(found))
    try:
        with executor_of(options.jobs) as executor:
            for place, verdict in run(setting.bench, what_ifs, judge, executor, tuple(found)):
                found[place] = verdict
                if journal:
                    journal.add(place, verdict)
                shown.update(1)
    finally:
        shown.close()
        if journal:
            journal.close()
    verdicts = [found[place] for place in range(len(what_ifs))]
    if options.csv:
        write_csv(options.csv, campaign, verdicts)
    if options.json:
        modules = as_data(by_module(what_ifs, verdicts, options.depth)) if kind == "faults" else None
        write_json(options.json, campaign, verdicts, modules)
    return verdicts


@contextmanager
def executor_of(jobs: int) -> Iterator[Optional[Executor]]:
    """Who carries out what-ifs, where it is not this process alone. An interrupt waits meanwhile until no lock of the executor is
    held, which would be held for ever; a second one does not."""
    if jobs == 1:
        yield None
        return
    before = signal.signal(signal.SIGINT, note_interrupt)
    try:
        with ProcessPoolExecutor(jobs, initializer=heed_interrupts) as executor:
            yield executor
    except GatebenchError:
        # Other processes may have been interrupted before this one looked.
        if interrupted.is_set():
            raise KeyboardInterrupt from None
        raise
    finally:
        signal.signal(signal.SIGINT, before)
        interrupted.clear()


def note_interrupt(_number: int, _frame: Optional[FrameType]) -> None:
    if interrupted.is_set():
        raise KeyboardInterrupt
    interrupted.set()


def heed_interrupts() -> None:
    """A process that is interrupted does nothing more, without a word: the one that started it says what is to be said."""
    signal.signal(signal.SIGINT, lambda number, frame: interrupted.set())
