"""Stimulus from a value change dump of any simulator, read by pyvcd: the extra `vcd` of this package."""
from fractions import Fraction
from importlib import import_module
from typing import Any, Dict, Iterable, Iterator, List, Mapping, Tuple, Union

from .lines import line_of
from .stimulus import bits_of_width
from .values import VALUES

# A unit of time in femtoseconds.
UNITS = {"s": 10**15, "ms": 10**12, "us": 10**9, "ns": 10**6, "ps": 10**3, "fs": 1}


def stimulus_of_vcd(path: str, names: Mapping[str, str], unit: str = "1 ns") -> List[str]:
    """The points, as lines `stim N T V`, of the variables that `names` has, by their names with scopes, as {"tb.clk": "clk"}.

    A vector gives a point to each of its bits: with "tb.a" as "a" these are a[3], a[2], .. as the dump numbers them. `unit` is
    the time unit of the design. ImportError where pyvcd is not installed; ValueError where a name is not in the dump, or a
    change falls between two time units."""
    try:
        reader = import_module("vcd.reader")
    except ModuleNotFoundError:
        raise ImportError("the library pyvcd is missing: `pip install pyvcd`", name="vcd") from None
    with open(path, "rb") as file:
        return list(points(reader.tokenize(file), names, unit))


def points(tokens: Iterable[Any], names: Mapping[str, str], unit: str) -> Iterator[str]:
    """The points that the tokens of a dump spell."""
    rest = iter(tokens)
    scale, variables = read_head(rest, names)
    scale /= time_of(*unit.split(" "))
    time, last = Fraction(0), {}  # type: Fraction, Dict[str, str]
    for token in rest:
        if token.kind.name == "CHANGE_TIME":
            time = token.data * scale
        elif token.kind.name in ("CHANGE_SCALAR", "CHANGE_VECTOR"):
            for nets in variables.get(token.data.id_code, ()):
                for net, bit in zip(nets, bits_of(token.data.value, len(nets))):
                    if last.get(net) != bit:
                        last[net] = bit
                        yield line_of("stim", net, whole(time, unit), bit)


def whole(time: Fraction, unit: str) -> int:
    if time.denominator != 1:
        raise ValueError(f"the dump has a change between {int(time)} and {int(time) + 1} times {unit}")
    return time.numerator


def time_of(magnitude: str, unit: str) -> Fraction:
    """A time in femtoseconds."""
    return Fraction(int(magnitude) * UNITS[unit])


def read_head(tokens: Iterator[Any], names: Mapping[str, str]) -> Tuple[Fraction, Dict[str, List[List[str]]]]:
    """The time unit in femtoseconds, and of each code the nets of its variables, bit by bit from the left."""
    scale, missing = Fraction(UNITS["ns"]), set(names)
    scopes: List[str] = []
    found: Dict[str, List[List[str]]] = {}
    for token in tokens:
        kind, data = token.kind.name, token.data
        if kind == "TIMESCALE":
            scale = time_of(data.magnitude.value, data.unit.value)
        elif kind == "SCOPE":
            scopes.append(data.ident)
        elif kind == "UPSCOPE":
            scopes.pop()
        elif kind == "VAR":
            name = ".".join([*scopes, data.reference])
            if name in names:
                missing.discard(name)
                found.setdefault(data.id_code, []).append(nets_of(names[name], data.size, data.bit_index))
        elif kind == "ENDDEFINITIONS":
            break
    if missing:
        raise ValueError(f"the dump has no {', '.join(sorted(missing))}")
    return scale, found


def nets_of(net: str, size: int, index: Union[None, int, Tuple[int, int]]) -> List[str]:
    """The nets of the bits of a variable: of a vector by the indices of its range, or from its size - 1 down to 0."""
    if isinstance(index, int):
        return [f"{net}[{index}]"]
    if index is None:
        return [net] if size == 1 else bits_of_width(net, size)
    left, right = index
    step = 1 if left <= right else -1
    return [f"{net}[{it}]" for it in range(left, right + step, step)]


def bits_of(value: Union[int, str], width: int) -> str:
    """The bits of a change, which a dump may write shorter than they are: x and z go on to the left, and else 0 stands there.
    What is neither of the four values is x."""
    text = format(value, "b") if isinstance(value, int) else value.lower()
    first = text[:1] if text[:1] in ("x", "z") else "0"
    return "".join(it if it in VALUES else "x" for it in text.rjust(width, first))
