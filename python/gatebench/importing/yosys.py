"""yosys, which reads Verilog, takes hierarchy apart, and maps what is behaviour to gates."""
import os
import re
import shutil
import subprocess
import tempfile
from typing import AbstractSet, List, NamedTuple, Optional, Sequence, Tuple

from .fault import Fault, ImportRefused, ToolMissing
from .liberty import Library
from .power import POWER
from .sources import Source, Sources, names_behind
from .verilog_words import words_of

PROGRAM = "yosys"
MISSING = (
    "`import` reads Verilog with yosys, and there is none: install it (apt-get install yosys), or name it in YOSYS; "
    "a netlist that gatebench reads as it is needs no import"
)

# The flip-flops and latches that all others are turned into.
LEGAL = "".join(
    f" -cell {it} x"
    for it in ("$_DFF_P_", "$_DFF_PN0_", "$_DFF_PN1_", "$_DFFSR_PNN_", "$_DLATCH_P_", "$_DLATCHSR_PNN_", "$_SR_NN_")
)
INITIAL, HIERARCHY = "initial.txt", "hierarchy.json"


class Resized(NamedTuple):
    """A pin of a cell, how many bits are connected to it, and how many it has."""

    cell: str
    pin: str
    connected: int
    width: int


class Ran(NamedTuple):
    """What yosys made: the netlist as JSON, the hierarchy that it had, how many nets had an initial value, which is dropped,
    what is to be remarked, and the pins that have another width than what is connected to them."""

    netlist: str
    hierarchy: str
    initial: int
    remarks: List[str]
    resized: List["Resized"]


def program() -> str:
    """The path of yosys. ToolMissing where there is none."""
    found = os.environ.get("YOSYS") or shutil.which(PROGRAM)
    if not found:
        raise ToolMissing(MISSING)
    return found


class Yosys:
    """Runs yosys over the files of an import, in a folder of its own. `stage` begins the names of the texts that it reads."""

    def __init__(self, sources: Sources, top: Optional[str], folder: str, stage: str) -> None:
        self.sources, self.top, self.folder, self.stage = sources, top, folder, stage
        self.program = program()

    def path(self, name: str) -> str:
        return os.path.join(self.folder, name)

    def read_lines(self, are_cells: bool, how: str = "") -> List[str]:
        """Writes the files of the design, or those of cells, and gives the lines that read them."""
        lines = []
        for number, source in enumerate(self.sources.files):
            if source.is_cells == are_cells:
                path = self.write(f"{self.stage}{number}.v", source.text)
                around = self.folder_of(source, f"{self.stage}{number}.folder")
                words = f"{how}{'-sv ' * source.path.endswith('.sv')}-I{around} "
                lines.append(f"read_verilog -icells {words}{quoted(path)}")
        return lines

    def folder_of(self, source: Source, link: str) -> str:
        """The folder of a file, in which it may include others; a link to it where yosys would read its path as several words."""
        folder = os.path.dirname(os.path.abspath(source.path))
        if not has_blank(folder):
            return folder
        if not os.path.lexists(self.path(link)):
            os.symlink(folder, self.path(link))
        return self.path(link)

    def gate_lines(self) -> List[str]:
        """The line that reads the empty modules of gates."""
        gates = "".join(it.text() for it in self.sources.primitives.values())
        return [f"read_verilog {quoted(self.write('gates.v', gates))}"]

    def write(self, name: str, text: str) -> str:
        path = self.path(name)
        with open(path, "w", encoding="utf-8", errors="surrogateescape", newline="") as file:
            file.write(text)
        return path

    def run(self, lines: Sequence[str]) -> "subprocess.CompletedProcess[str]":
        script = self.write("script.ys", "\n".join(lines) + "\n")
        words = [self.program, "-q", "-T", "-s", script]
        environment = {**os.environ, "TMPDIR": self.folder}
        return subprocess.run(words, capture_output=True, encoding="utf-8", errors="surrogateescape", env=environment)

    def netlist(self) -> Ran:
        """The netlist with all hierarchy taken apart, as JSON. ImportRefused with what yosys refuses."""
        top = f"-top {self.top}" if self.top else "-auto-top"
        out = self.path("netlist.json")
        lines = [
            *self.read_lines(False),
            *([] if self.top else ["hierarchy -auto-top"]),
            *self.gate_lines(),
            *self.read_lines(True),
            f"hierarchy {top if self.top else ''}",
            "proc",
            f"write_json {self.path(HIERARCHY)}",
            "flatten",
            "tribuf",
            "memory_collect",
            "memory_map",
            *self.without_initial(),
            "chformal -remove",
            "techmap",
            "simplemap",
            f"dfflegalize{LEGAL}",
            f"write_json {out}",
        ]
        said = self.must_run(lines)
        return Ran(
            self.read(out),
            self.read(self.path(HIERARCHY)),
            count_in(self.path(INITIAL)),
            self.remarks(said),
            resized_in(said),
        )

    def without_initial(self) -> List[str]:
        """The lines that drop initial values, and add their number to a file."""
        return [f"tee -q -a {self.path(INITIAL)} select -count w:* a:init %i", "setattr -unset init w:*"]

    def synthesize(self, libraries: Sequence[Library]) -> Tuple[str, List[str]]:
        """Maps the files to the cells of the first Liberty file, or to gates without one, and gives the netlist as Verilog,
        and remarks."""
        top, out = f"-top {self.top}" if self.top else "-auto-top", self.path("synthesized.v")
        cells = f"-liberty {quoted(libraries[0].file)}" if libraries else "-g AND,NAND,OR,NOR,XOR,XNOR,MUX"
        lines = [*self.read_lines(False), *([] if self.top else ["hierarchy -auto-top"]), *self.gate_lines()]
        lines += [
            *self.read_lines(True, "-lib "),
            *(f"read_liberty -lib -ignore_miss_func {quoted(it.file)}" for it in libraries),
            *self.power_lines(libraries),
        ]
        lines += [f"hierarchy {top if self.top else ''}", "proc", "tribuf", "chformal -remove"]
        lines += [f"synth {top if self.top else ''}", *self.without_initial()]
        lines += [f"dfflibmap {cells}" if libraries else f"dfflegalize{LEGAL}"]
        lines += [f"abc {cells}", "opt_clean -purge", f"write_verilog -noexpr -nohex {out}"]
        said = self.must_run(lines)
        return self.read(out), self.remarks(said)

    def power_lines(self, libraries: Sequence[Library]) -> List[str]:
        """The lines that give cells the pins for power to which the design connects something: yosys refuses an instance with a pin
        that its cell has not."""
        words = {word for it in self.sources.files if not it.is_cells for word in re.findall(r"\w+", it.text)}
        usual = {it for it in words if POWER.fullmatch(it)}
        pins = {name: usual for it in self.sources.files if it.is_cells for name in names_behind(words_of(it.text), "module")}
        models = {name: it.model for library in libraries for name, it in library.cells.items() if it.model}
        pins.update({name: (usual | it.power & words).difference(it.pins) for name, it in models.items()})
        return [line for name in sorted(words.intersection(pins)) for line in add_pins(name, pins[name])]

    def read(self, path: str) -> str:
        with open(path, encoding="utf-8", errors="surrogateescape") as file:
            return file.read()

    def must_run(self, lines: Sequence[str]) -> str:
        """Runs yosys, and gives what it said. ImportRefused with what it refuses."""
        ran = self.run(lines)
        if ran.returncode:
            raise ImportRefused(self.faults(ran.stderr))
        return ran.stderr

    def remarks(self, said: str) -> List[str]:
        """What a user wants to know of the warnings of a run."""
        implicit = re.findall(r"^(\S+):(\d+): Warning: Identifier `\\(\S+)' is implicitly declared", said, re.M)
        found = [(source, line, name) for path, line, name in implicit for source in [self.source(path)] if source]
        remarks = [
            f"{source.path}:{line}: {name} is declared nowhere, and taken as a net"
            for source, line, name in found
            if not source.is_cells
        ]
        return remarks

    def faults(self, said: str) -> List[Fault]:
        """What yosys refuses: the first fault of each file where there are such, else what the run said."""
        found = [self.run([line]) for line in (*self.read_lines(False), *self.read_lines(True))]
        faults = [fault for it in found if it.returncode for fault in self.faults_in(it.stderr)]
        return faults or self.faults_in(said)

    def faults_in(self, said: str) -> List[Fault]:
        errors = re.findall(r"^(?:(\S+):(\d+): )?ERROR: (.*)", said, re.M)
        if not errors:
            return [Fault("yosys", 0, "the run", said.strip().splitlines()[-1] if said.strip() else "it ended", CURE)]
        return [self.fault(path, line, message) for path, line, message in errors]

    def fault(self, path: str, line: str, message: str) -> Fault:
        token = re.search(r"unexpected '?(?:TOK_)?(\S+?)'?,?(?: |$)", message)
        name = re.search(r"[`'\\]+([^`']+?)'", message)
        is_users = name is not None and not name[1].startswith(self.folder)
        word = spelled(token[1]) if token else name[1] if name and is_users else PROGRAM
        shown = re.sub(r"(?<=unexpected )TOK_(\w+)", lambda it: it[1].lower(), message).rstrip("!.\n")
        return Fault(self.original(path), int(line or 0), word, shown, cure(message))

    def source(self, path: str) -> Optional[Source]:
        """What a text of this run was made of, None for another one."""
        number = re.fullmatch(re.escape(self.path(self.stage)) + r"(\d+)\.v", path)
        return self.sources.files[int(number[1])] if number else None

    def original(self, path: str) -> str:
        """The file that a text of this run was made of, or that it includes."""
        source = self.source(path)
        if source:
            return source.path
        return os.path.realpath(path) if path.startswith(self.folder) else path or "the design"


def add_pins(cell: str, pins: AbstractSet[str]) -> List[str]:
    """The lines that add inputs to a cell. yosys adds none to what it knows as a black box."""
    adding = [f"add -input {it} 1 {cell}" for it in sorted(pins)]
    return [f"setattr -mod -unset blackbox ={cell}", *adding, f"setattr -mod -set blackbox 1 {cell}"] if adding else []


CURE = "yosys says more: run it over the file by itself"
CURES = (
    ("syntax error", "it is no Verilog that yosys reads: correct it there, or in the line before"),
    ("not found", "give the file that has it, or another --top"),
    ("is not part of the design", "give the file that has it, or another --top"),
    ("of unknown type", "give its library by --lib, as Liberty or as Verilog"),
    ("Can't map port", "connect as many nets as the module has ports"),
    ("does not have a port", "correct the name of the port, or give the file with the cell that was meant"),
    ("Re-definition", "give it once: leave one of the files out"),
    ("ABC output file", "synthesis wants more cells of the Liberty file: an inverter, a buffer and a gate of two inputs, as a nand"),
    ("include", "give the file's folder, or write its text in its place"),
)


def cure(message: str) -> str:
    return next((it for word, it in CURES if word in message), CURE)


def spelled(word: str) -> str:
    """A word as a text has it, where yosys says its token."""
    return word.lower() if word.isupper() else word


def quoted(path: str) -> str:
    return '"' + path + '"'


def resized_in(said: str) -> List[Resized]:
    found = re.findall(r"Resizing cell port [^.\s]+\.(\S+)\.(\S+?) from (\d+) bits to (\d+) bits", said)
    return [Resized(cell.lstrip("\\"), pin, int(connected), int(width)) for cell, pin, connected, width in found]


def count_in(path: str) -> int:
    with open(path, encoding="utf-8") as file:
        return sum(int(it) for it in re.findall(r"(\d+) objects", file.read()))


# Where the files of a run go if the usual folder has a blank in its path: not all commands of yosys take such a path.
ROOM = "/tmp"


def has_blank(path: str) -> bool:
    return any(it.isspace() for it in path)


def room() -> "tempfile.TemporaryDirectory[str]":
    """A folder for the files of a run."""
    usual = tempfile.gettempdir()
    return tempfile.TemporaryDirectory(prefix="gatebench-import-", dir=ROOM if has_blank(usual) else usual)
