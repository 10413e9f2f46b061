"""The command `python -m gatebench import`: its words, and what it prints."""
import argparse
import sys

from ..limits import MOST_DELAY
from ..names import names_path
from .fault import ImportRefused
from .imports import Imported, Options, import_design
from .liberty_timing import Timing
from .times import Unit, unit_of

WELL, REFUSED = 0, 1
DESCRIPTION = """Makes a text that gatebench reads of a netlist as other tools write it, and beside it a file of the names
that its source has for nets and gates."""


def unit_word(text: str) -> Unit:
    try:
        return unit_of(text)
    except ValueError as error:
        raise argparse.ArgumentTypeError(str(error)) from None


def delay_word(text: str) -> int:
    if not text.isdigit() or not 1 <= int(text) <= MOST_DELAY:
        raise argparse.ArgumentTypeError(f"{text} is no delay: 1 to {MOST_DELAY}")
    return int(text)


def add_words(to: argparse.ArgumentParser) -> None:
    to.description = DESCRIPTION
    to.add_argument("files", nargs="+", metavar="FILE", help="a Verilog file")
    to.add_argument(
        "-o", "--output", metavar="FILE", help="the text to write (default: the standard output, without names)"
    )
    to.add_argument("--top", metavar="NAME", help="the module that is the design (default: the one that yosys finds)")
    to.add_argument(
        "--lib",
        nargs="+",
        action="extend",
        default=[],
        metavar="FILE",
        help="libraries of cells: Liberty (.lib), or Verilog",
    )
    to.add_argument(
        "--synthesize", action="store_true", help="map the source to the cells of the first Liberty file, or to gates"
    )
    to.add_argument(
        "--delay", type=delay_word, default=1, metavar="D", help="the delay of gates that have none (default 1)"
    )
    to.add_argument("--sdf", nargs="+", action="extend", default=[], metavar="FILE", help="delays of instances")
    to.add_argument("--load", type=float, metavar="C", help="take delays of Liberty cells, at this load of their outputs")
    to.add_argument("--slew", type=float, default=0.0, metavar="T", help="the time of transition for --load (default 0)")
    to.add_argument(
        "--unit", type=unit_word, metavar="U", help="the time unit, as 10ps (default: 1ps with --sdf or --load)"
    )


def options_of(words: argparse.Namespace) -> Options:
    liberty = [it for it in words.lib if not it.endswith((".v", ".sv"))]
    verilog = [it for it in words.lib if it not in liberty]
    timing = None if words.load is None else Timing(words.load, words.slew)
    return Options(words.files, verilog, liberty, words.sdf, words.top, words.unit, words.delay, timing, words.synthesize)


def run(words: argparse.Namespace) -> int:
    """Carries out the command, and gives its status."""
    try:
        made = import_design(options_of(words))
    except ImportRefused as refused:
        for fault in refused.faults:
            print(fault, file=sys.stderr)
        count = len(refused.faults)
        print(f"gatebench import: {count} fault{'s' * (count != 1)}; nothing was written", file=sys.stderr)
        return REFUSED
    write(made, words.output)
    return WELL


def write(made: Imported, path: str) -> None:
    if path:
        with open(path, "w", encoding="utf-8", errors="surrogateescape", newline="\n") as file:
            file.write(made.text)
        made.names.write(names_path(path))
    else:
        sys.stdout.write(made.text)
    for note in made.notes:
        print(f"gatebench import: {note}", file=sys.stderr)
    print(f"gatebench import: {made.top}: {made.gates} gates, {made.nets} nets, in {made.unit}", file=sys.stderr)
