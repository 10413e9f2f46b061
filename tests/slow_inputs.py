"""Inputs that might be slow: each limit, and whatever a program could do by more work than the input has bytes. Each is made at
any size, and what a run over it costs is measured: tools/slow_inputs shows the costs, test_growth compares two sizes."""
import ctypes
import math
import os
import resource
import signal
import subprocess
from typing import Callable, Dict, Iterable, List, NamedTuple

# Limits of a design and of a session (docs/SPEC.md).
MAX_NAME = 1024
MAX_TIME = 1_099_511_627_776
MAX_BATCH = 4096
Lines = Iterable[str]


class Slow(NamedTuple):
    """An input: its name with what its size counts, the design text and the commands at a size, the size of the table, and the
    smaller size of the check, 0 where it has none. What it says of a refused design, and the first command's refusal, if any."""

    name: str
    counts: str
    text: Callable[[int], Lines]
    commands: Callable[[int], Lines]
    full: int
    small: int = 0
    said: str = ""
    refused: str = ""


class Cost(NamedTuple):
    """What a run took: processor seconds, the most bytes of memory at once, bytes of input; and what went wrong, if anything."""

    seconds: float
    memory: int
    given: int
    wrong: str


def nothing(size: int) -> Lines:
    return []


def a_pin(size: int) -> Lines:
    return ["module m(input a); endmodule"]


def a_buffer(size: int) -> Lines:
    return ["module m(input a, output y); buf #1 g(y, a); endmodule"]


def in_batches(lines: Lines) -> Lines:
    """The edits in batches as large as they may be."""
    kept = 0
    for line in lines:
        if not kept:
            yield "begin"
        yield line
        kept += 1
        if kept == MAX_BATCH:
            yield "commit"
            kept = 0
    if kept:
        yield "commit"


def points(size: int) -> Lines:
    return (f"stim a {place} {place % 2}" for place in range(size))


def far_points(size: int) -> Lines:
    return [f"horizon {MAX_TIME}", *points(size)]


def names_that_begin_alike(size: int) -> Lines:
    yield "module m(input a);\nwire"
    yield from (f" {'n' * 55}{place:05}{',' if place < size - 1 else ';'}" for place in range(size))
    yield f"buf #1 g({'n' * 55}{size - 1:05}, a);\nendmodule"


def long_names(size: int) -> Lines:
    yield "module m(input a);"
    yield from (f"wire {'n' * (MAX_NAME - 5)}{place:05};" for place in range(size))
    yield "endmodule"


def new_long_names(size: int) -> Lines:
    yield from in_batches(f"net {'n' * (MAX_NAME - 5)}{place:05} wire" for place in range(size))
    yield f"value {'n' * (MAX_NAME - 5)}{size - 1:05} 0"


def levels_of_two(size: int) -> Lines:
    for level in range(size - 1):
        yield f"module m{level}; m{level + 1} l(), r(); endmodule"
    yield f"module m{size - 1}; wire y; endmodule"


def tree_of_modules(size: int) -> Lines:
    """A tree of two instances a level with so many leaves, each with one gate."""
    level = 0
    while 2**level < size:
        yield f"module m{level}(input a); m{level + 1} l(a), r(a); endmodule"
        level += 1
    yield f"module m{level}(input a); not #1 g(y, a); endmodule"


def many_vectors(size: int) -> Lines:
    yield "module m;"
    yield from (f"wire [65535:0] v{place};" for place in range(size))
    yield "endmodule"


def many_nets_of_instances(size: int) -> Lines:
    """Nets of a module with so many of them, of which there are 32,768 instances."""
    for level in range(15):
        yield f"module m{level}; m{level + 1} l(), r(); endmodule"
    yield f"module m15; wire {', '.join(f'n{place}' for place in range(size))}; endmodule"


def nets_times_instances(size: int) -> Lines:
    """So many instances of a module with so many nets: a short text of a design with the square of them."""
    yield f"module m; {' '.join(f'k u{place}();' for place in range(size))} endmodule"
    yield f"module k; wire {', '.join(f'n{place}' for place in range(size))}; endmodule"


def blanks(size: int) -> Lines:
    return ["module m(input a);", " " * size, "endmodule"]


def line_ends(size: int) -> Lines:
    return ["module m(input a);", "\n" * size, "endmodule"]


def a_comment(size: int) -> Lines:
    return ["module m(input a);", "/*", "*" * size, "*/ endmodule"]


def an_open_comment(size: int) -> Lines:
    return ["module m(input a);", "/*" + " /" * (size // 2)]


def attributes(size: int) -> Lines:
    return ["module m(input a);", "(* k *)" * (size // 7), "endmodule"]


def modules_in_a_row(size: int) -> Lines:
    """Each module has an instance of the next one, and none of the first."""
    yield from (f"module m{place}; m{place + 1} u(); endmodule" for place in range(size))
    yield f"module m{size}; endmodule"


def modules_in_a_ring(size: int) -> Lines:
    """The last module has an instance of itself: so it is the only one that is among its own instances."""
    yield from (f"module m{place}; m{place + 1} u(); endmodule" for place in range(size))
    yield f"module m{size}; m{size} u(); endmodule"


def modules_of_all_before(size: int) -> Lines:
    """Each module has two instances of the next one, and the last one of the first."""
    yield from (f"module m{place}; m{place + 1} u(), v(); endmodule" for place in range(size))
    yield f"module m{size}; m0 u(); endmodule"


def modules_apart(size: int) -> Lines:
    return (f"module m{place}; endmodule" for place in range(size))


def ports_by_name(size: int) -> Lines:
    """An instance whose ports are connected by name, the last one first."""
    names = [f"p{place}" for place in range(size)]
    yield f"module m(input a); k u({', '.join(f'.{name}(a)' for name in reversed(names))}); endmodule"
    yield f"module k({', '.join(names)}); input {', '.join(names)}; endmodule"


def wide_gate(size: int) -> Lines:
    names = ", ".join(f"a{place}" for place in range(64))
    return [f"module m(input {names}, output y);", f"xor #(1,2) g(y, {names});", "endmodule"]


def changes_at_each_moment(size: int) -> Lines:
    """Points of 64 inputs at each moment, all the same but one, and a wave at the end."""
    yield from in_batches(f"stim a{place} {t} {(t + (place == 0) * (t // 2)) % 2}" for t in range(size) for place in range(64))
    yield f"horizon {size}"


def inverters(size: int) -> Lines:
    yield "module m(input a, output y);"
    yield from (f"not #1 g{place}(y, a);" for place in range(size))
    yield "endmodule"


def edits_of_inverters(size: int) -> Lines:
    middle = size // 2
    return ["horizon 5", "stim a 0 0", "stim a 1 1", "stim a 2 0", f"drop g{middle}", f"delay g{middle + 1} 2 2", f"type g{middle + 2} buf",
            f"wire g{middle + 3} y y", "unstim a 1"]  # fmt: skip


def drops_of_inverters(size: int) -> Lines:
    return ["horizon 5", "stim a 0 0", *(f"drop g{place * (size // 64)}" for place in range(64))]


def three_state(size: int) -> Lines:
    yield "module m(input d, en, output y);"
    yield from (f"bufif1 #1 g{place}(y, d, en);" for place in range(size))
    yield "endmodule"


def edits_of_three_state(size: int) -> Lines:
    return ["horizon 20", "stim d 0 1", "stim en 0 0", "stim en 5 1", "stim en 9 0", "stim d 7 0", "unstim en 5", "drop g7"]


def drivers_in_turns(size: int) -> Lines:
    """Drivers of one net, of which one a moment changes: each has an input and a delay of its own."""
    names = [f"a{place}" for place in range(size)]
    yield f"module m({', '.join(names)}, y);\ninput {', '.join(names)};\noutput wor y;"
    yield from (f"buf #{place + 1} g{place}(y, {name});" for place, name in enumerate(names))
    yield "endmodule"


def points_in_turns(size: int) -> Lines:
    yield f"horizon {3 * size}"
    yield from in_batches(f"stim a{place} 0 0" for place in range(size))
    yield from in_batches(f"stim a{place} {size} 1" for place in range(size))
    yield f"stim a{size // 2} 5 1"


def readers(size: int) -> Lines:
    yield "module m(input a, b);"
    yield from (f"and #1 g{place}(y{place}, a, b);" for place in range(size))
    yield "endmodule"


def edits_of_readers(size: int) -> Lines:
    middle = size // 2
    yield from ("horizon 5", "stim a 0 0", "stim b 0 1", "stim a 2 1", f"wire g{middle} y{middle} b b", f"drop g{middle}")
    yield from (f"wire g{place} y{place} b b" for place in range(64))


def row_of_buffers(size: int) -> Lines:
    yield "module m(input a);\nbuf #1 g0(y0, a);"
    yield from (f"buf #1 g{place}(y{place}, y{place - 1});" for place in range(1, size))
    yield "endmodule"


def edits_of_a_row(size: int) -> Lines:
    middle = size // 2
    return [f"horizon {2 * size}", "stim a 0 0", "stim a 9 1", f"delay g{middle} 3 2", f"type g{middle} not", "delay g0 2 2", "unstim a 9"]


def seeks(size: int) -> Lines:
    """Looks for a value that a wave does not have, one for each of its changes."""
    yield from in_batches(points(size))
    yield f"horizon {size}"
    yield from (f"seek a {place} z" for place in range(size))


def looks(size: int) -> Lines:
    yield from in_batches(points(size))
    yield f"horizon {size}"
    for place in range(size):
        yield from (f"value a {place}", f"next a {place}", f"prev a {place}")


def backward_points(size: int) -> Lines:
    return [f"horizon {size}", *(f"stim a {place} {place % 2}" for place in reversed(range(size)))]


def points_taken_away(size: int) -> Lines:
    yield from in_batches(points(size))
    yield f"horizon {size}"
    yield from (f"unstim a {place}" for place in range(size))


def nets_come_and_go(size: int) -> Lines:
    yield from (f"net n{place} wire" for place in range(size))
    yield from (f"dropnet n{place}" for place in range(size))


def gates_come_and_go(size: int) -> Lines:
    yield "horizon 1"
    yield from in_batches(f"net n{place} wire" for place in range(size))
    yield from (f"gate g{place} not 1 1 n{place} a" for place in range(size))
    yield from (f"drop g{place}" for place in range(size))


def holds(size: int) -> Lines:
    """64 held versions of as many designs, each after an edit that changes all."""
    yield "horizon 5"
    yield "stim b 0 1"
    for place in range(64):
        yield from (f"stim a 0 {place % 2}", f"hold k{place}")


def one_line(size: int) -> Lines:
    """A line without an end: a session takes only so much of it as it needs to refuse it."""
    return ["x" * size]


def all_limits_text(size: int) -> Lines:
    """Nets, gates and bytes of a text up to their limits (at the full size): a row of buffers behind one input."""
    yield "module m(input a, b);\nbuf #1000000 g(y0, a);"
    for place in range(1, size - 2):
        before = f"y{place - 1:05}" if place > 1 else "y0"
        yield f"buf #(1,1000000) {'g' * 22}{place:05}(y{place:05}, {before});"
    yield "endmodule"


def all_limits(size: int) -> Lines:
    """Points up to their limit of an input that no gate reads, and of one that a row of gates stands behind."""
    yield f"horizon {MAX_TIME}"
    yield from in_batches(f"stim b {place * 900} {place % 2}" for place in range(16 * size - 64))
    yield from (f"stim a {place * 1000} {place % 2}" for place in range(64))
    yield from (f"hold k{place}" for place in range(64))


SLOW: List[Slow] = [
    Slow("names that begin alike, in a text", "nets", names_that_begin_alike, nothing, 65_534, 8_191),
    Slow("names of 1,024 bytes, in a text", "nets", long_names, nothing, 4_050, 500),
    Slow("names of 1,024 bytes, by commands", "nets", a_pin, new_long_names, 65_535, 1_024),
    Slow("levels of two instances", "levels", levels_of_two, nothing, 32, said="line 1: 11 TooMany\n"),
    Slow("a tree of modules", "leaves", tree_of_modules, nothing, 32_768, 4_096),
    Slow("nets of vectors", "vectors of 65,536", many_vectors, nothing, 150, said="line 1: 11 TooMany\n"),
    Slow("nets of vectors, a text of 4 MB", "vectors of 65,536", many_vectors, nothing, 170_000, said="line 1: 11 TooMany\n"),
    Slow("nets of 32,768 instances", "nets of each", many_nets_of_instances, nothing, 300, said="line 1: 11 TooMany\n"),
    Slow("instances of as many nets", "instances", nets_times_instances, nothing, 65_535, 1_024, said="line 1: 11 TooMany\n"),
    Slow("a comment", "bytes", a_comment, nothing, 4_194_000, 524_000),
    Slow("a comment without an end", "bytes", an_open_comment, nothing, 4_194_000, 524_000, "line 2: 2 Syntax\n"),
    Slow("attributes", "bytes", attributes, nothing, 4_194_000, 524_000),
    Slow("blanks", "bytes", blanks, nothing, 4_194_000, 524_000),
    Slow("line ends", "bytes", line_ends, nothing, 4_194_000, 524_000),
    Slow("modules in a row", "modules", modules_in_a_row, nothing, 95_000, 5_000, "line 1: 11 TooMany\n"),
    Slow("modules in a row, the last in itself", "modules", modules_in_a_ring, nothing, 95_000, 5_000, "line {last}: 5 Recursive\n"),
    Slow("modules in a ring of twos", "modules", modules_of_all_before, nothing, 85_000, 5_000, "line 1: 5 Recursive\n"),
    Slow("modules apart", "modules", modules_apart, nothing, 160_000, 20_000, "line 2: 7 ManyTops\n"),
    Slow("ports by name", "ports", ports_by_name, nothing, 65_000, 8_000),
    Slow("points of one input, in batches", "points", a_buffer, lambda size: in_batches(points(size)), 1_048_576, 8_192),
    Slow("points of one input, in batches, far horizon", "points", a_buffer, lambda size: [f"horizon {MAX_TIME}", *in_batches(points(size))],
         1_048_576, 16_384),
    Slow("points of one input, alone", "points", a_buffer, points, 1_048_576, 1_024),
    Slow("points of one input, alone, behind a horizon", "points", a_buffer, lambda size: ["horizon 1000", *points(size)], 524_288, 16_384),
    Slow("points of one input, alone, far horizon", "points", a_buffer, far_points, 65_536, 256),
    Slow("points of one input, alone, the last first", "points", a_buffer, backward_points, 65_536, 256),
    Slow("points taken away, the first first", "points", a_buffer, points_taken_away, 65_536, 256),
    Slow("64 inputs of a gate that all change", "moments", wide_gate, changes_at_each_moment, 16_384, 128),
    Slow("inverters to one net, some edits", "gates", inverters, edits_of_inverters, 65_532, 1_024),
    Slow("inverters to one net, 64 drops", "gates", inverters, drops_of_inverters, 65_532, 256),
    Slow("bufif1 to one net, one enable", "gates", three_state, edits_of_three_state, 65_000, 1_024),
    Slow("drivers of one net in turns", "gates", drivers_in_turns, points_in_turns, 65_000, 256),
    Slow("drivers of one net in turns, from scratch", "gates", drivers_in_turns, lambda size: [*points_in_turns(size)][1:] + [f"horizon {3 * size}"],
         65_000, 1_024),
    Slow("readers of one net, 66 edits", "gates", readers, edits_of_readers, 65_000, 512),
    Slow("a row of buffers", "gates", row_of_buffers, edits_of_a_row, 65_535, 1_024),
    Slow("seeks that find nothing", "changes and seeks", a_buffer, seeks, 65_536, 8_192),
    Slow("looks at a wave", "changes and looks", a_buffer, looks, 262_144, 4_096),
    Slow("nets come and go, alone", "nets", a_pin, nets_come_and_go, 65_535, 512),
    Slow("gates come and go, alone", "gates", a_pin, gates_come_and_go, 65_535, 512),
    Slow("64 held versions", "gates", readers, holds, 20_000, 128),
    Slow("a line without an end", "bytes", a_pin, one_line, 67_108_864, 1_048_576, refused="no 17 LongLine"),
    Slow("all limits at once", "gates", all_limits_text, all_limits, 65_530, 128),
]


def write(path: str, lines: Lines) -> int:
    """Writes the lines; gives how many bytes they have."""
    with open(path, "w", encoding="ascii", newline="\n") as file:
        file.writelines(f"{line}\n" for line in lines)
    return os.path.getsize(path)


def line_ends_of(path: str) -> int:
    with open(path, "rb") as file:
        return sum(block.count(b"\n") for block in iter(lambda: file.read(1 << 20), b""))


# A shell that says the number of a process and ends. The process has the three files for its streams, and becomes the program
# once the shell's own input ends: so the shell can't see its end.
START = 'exec 3<&0; { read -r _ <&3; exec "$@" 3<&-; } < "$COMMANDS" > "$REPLIES" 2> "$SAID" & echo $!'
# What makes this process the parent of those whose own has ended (prctl of Linux).
PR_SET_CHILD_SUBREAPER = 36


def limit(seconds: float, memory: int) -> None:
    """So much processor time and memory for each process that this one becomes or starts."""
    resource.setrlimit(resource.RLIMIT_CPU, (math.ceil(seconds), math.ceil(seconds)))
    resource.setrlimit(resource.RLIMIT_AS, (memory, memory))


def start(words: List[str], streams: Dict[str, str], seconds: float, memory: int) -> int:
    """Starts a program, and gives its number, to be waited for.

    The system counts as a process's most memory also what it had before it became this program, as the copy of the one that
    started it. That is more than most runs take where Python does so. So a shell does, which ends, and the run is handed on."""
    if ctypes.CDLL(None).prctl(PR_SET_CHILD_SUBREAPER, 1, 0, 0, 0):
        raise OSError("this system does not hand on a process whose parent has ended")
    waits, ends = os.pipe()
    try:
        started = subprocess.run(["sh", "-c", START, "sh", *words], env={**os.environ, **streams}, stdin=waits, stdout=subprocess.PIPE,
                                 check=True, preexec_fn=lambda: limit(seconds, memory))  # fmt: skip
    finally:
        os.close(waits)
        os.close(ends)
    return int(started.stdout)


def run(program: str, slow: Slow, size: int, folder: str, seconds: float, memory: int) -> Cost:
    """A run over the input at this size, with so much processor time and memory at most."""
    text, commands, replies, said = (os.path.join(folder, name) for name in ("m.v", "commands", "replies", "said"))
    given = write(text, slow.text(size)) + write(commands, slow.commands(size))
    process = start([program, text, "--horizon", "0"], {"COMMANDS": commands, "REPLIES": replies, "SAID": said}, seconds, memory)
    _, status, used = os.wait4(process, 0)
    code = os.waitstatus_to_exitcode(status)
    with open(said, encoding="utf-8", errors="replace") as file:
        ended = code, file.read(), first_refusal(replies)
    wanted = int(bool(slow.said)), slow.said.format(last=line_ends_of(text)), slow.refused
    wrong = f"over {seconds:.0f} s" if code == -signal.SIGKILL else f"status {ended[0]}: {ended[1]}{ended[2]}".strip()
    return Cost(used.ru_utime + used.ru_stime, used.ru_maxrss * 1024, given, "" if ended == wanted else wrong)


def first_refusal(path: str) -> str:
    with open(path, encoding="utf-8", errors="replace") as file:
        return next((line.strip() for line in file if line.startswith("no ")), "")
