"""A flat netlist, as yosys writes it: ports, names of nets, and cells."""
import json
import re
from typing import Any, Callable, Dict, Iterator, List, NamedTuple, Sequence, Set, Tuple, Union

from .fault import Fault, ImportRefused
from .power import POWER
from .sources import KIND

# A net by its number, or a constant: "0", "1", "x", "z".
Bit = Union[int, str]


class Place(NamedTuple):
    """A line of a file, 0 where it is not known."""

    file: str
    line: int


class Cell(NamedTuple):
    """A cell: its name with its scopes, its type, and the nets at its pins; `$1` is the first pin of a list by order.
    `hidden` says that yosys made the cell, and that its name is one that nobody wrote."""

    name: str
    hidden: bool
    type: str
    pins: Dict[str, List[Bit]]
    place: Place
    order: Tuple[int, int]


class NetName(NamedTuple):
    """A name that a text has for a net, with its scopes, and its kind: one of several that the net may have."""

    name: str
    bit: Bit
    kind: str = "wire"


class Port(NamedTuple):
    """One bit of a port of the top."""

    name: str
    direction: str
    bit: Bit


class Kind(NamedTuple):
    """What an instance is one of: a module or a cell, with its ports in order, bit by bit."""

    name: str
    ports: Tuple[str, ...]


class Netlist(NamedTuple):
    """A netlist without hierarchy. `kinds` has the modules of the instances that it had, by their paths, and `faults` what was connected
    to no port of them."""

    top: str
    ports: List[Port]
    names: List[NetName]
    cells: List[Cell]
    kinds: Dict[str, Kind]
    faults: Sequence[Fault] = ()


def netlist_of(text: str, hierarchy: str, original: Callable[[str], str]) -> Netlist:
    """Reads the JSON of a run of yosys, in which all but the top are empty modules, and that of the hierarchy before.
    `original` gives the file of a text that yosys read."""
    modules: Dict[str, Any] = json.loads(text)["modules"]
    top = top_of(modules)
    module = modules[top]
    ports = [
        Port(name, port["direction"], bit) for key, port in module["ports"].items() for name, bit in bits_of(key, port)
    ]
    names = [
        NetName(name, bit, net.get("attributes", {}).get(KIND, "wire"))
        for key, net in module["netnames"].items()
        if not net["hide_name"]
        for name, bit in bits_of(key, net)
    ]
    cells = [cell_of(name, it, original) for name, it in module["cells"].items() if it["type"] != "$scopeinfo"]
    typed = [it.name for it in names] + [it.name for it in cells]
    taken = {part for it in typed for part in it.split(".")}
    instances = json.loads(hierarchy)["modules"]
    kinds, faults = kinds_in(instances, top), list(ports_at_fault(instances, original))
    return Netlist(bare(top), ports, names, renamed(sorted(cells, key=lambda it: it.order), taken), kinds, faults)


def top_of(modules: Dict[str, Any]) -> str:
    """The module that is marked as the top, or the only one. ImportRefused where there is none."""
    whole = [name for name, it in modules.items() if "blackbox" not in it["attributes"]]
    marked = [name for name in whole if int(modules[name]["attributes"].get("top", "0"), 2)]
    if not marked and len(whole) != 1:
        found = f"there are {', '.join(sorted(whole))}" if whole else "there is no module that has anything in it"
        raise ImportRefused(
            [Fault("the design", 0, "the top", found, "give a file with such a module, or name one by --top")]
        )
    return (marked or whole)[0]


def ports_at_fault(modules: Dict[str, Any], original: Callable[[str], str]) -> Iterator[Fault]:
    """The connections of instances to ports that their modules have not, which yosys leaves out; those that supply power may be."""
    for cell in (it for module in modules.values() for it in module["cells"].values()):
        module = modules.get(cell["type"])
        if module is not None and "blackbox" not in module["attributes"]:
            kind, place = kind_of(cell["type"], module), place_of(cell["attributes"].get("src", ""))
            for pin in cell["connections"]:
                if pin not in module["ports"] and not POWER.fullmatch(pin):
                    why = f"the module {bare(kind.name)} has no port by this name"
                    yield Fault(original(place.file), place.line, bare(pin), why, f"it has {', '.join(map(bare, module['ports'])) or 'none'}")


def kinds_in(modules: Dict[str, Any], top: str) -> Dict[str, Kind]:
    """The module of each instance, by its path."""
    kinds = {type: kind_of(type, it) for type, it in modules.items() if "blackbox" not in it["attributes"]}
    found: Dict[str, Kind] = {}
    left = [("", top)]
    while left:
        path, module = left.pop()
        for name, cell in modules[module]["cells"].items():
            if cell["type"] in kinds:
                found[path + name] = kinds[cell["type"]]
                left.append((f"{path}{name}.", cell["type"]))
    return found


def kind_of(type: str, module: Dict[str, Any]) -> Kind:
    name = re.sub(r"^\$paramod(?:\$\w+)?\\([^\\]*).*", r"\1", type)
    return Kind(name, tuple(bit for key, port in module["ports"].items() for bit, _ in bits_of(key, port)))


def renamed(cells: List[Cell], taken: Set[str]) -> List[Cell]:
    """The cells with a number for a name where yosys made it up: `_g1_`, in the scope that it names."""
    found, number = [], 0
    for cell in cells:
        if cell.hidden:
            number += 1
            while f"_g{number}_" in taken:
                number += 1
            cell = cell._replace(name=f"{scope_of(cell.name)}_g{number}_")
        found.append(cell)
    return found


def scope_of(hidden: str) -> str:
    """The scope in a name as `$flatten\\u1.\\u2.$and$..`, with a dot behind it; nothing where there is none."""
    found = re.match(r"\$flatten\\?(.*?\.)\$", hidden.replace("$flatten\\", "", hidden.count("$flatten") - 1))
    return found[1].replace("\\", "") if found else ""


def bare(name: str) -> str:
    """A name without the backslash that yosys leaves before a `$`, a digit or a backslash."""
    return name[1:] if name.startswith("\\") else name


def bits_of(key: str, net: Dict[str, Any]) -> List[Tuple[str, Bit]]:
    """The names of the bits of a net, from the left one."""
    name = bare(key)
    bits: List[Bit] = net["bits"]
    first = int(net.get("offset", 0))
    if len(bits) == 1 and first == 0:
        return [(name, bits[0])]
    last = first + len(bits) - 1
    pairs = [(f"{name}[{last - at if net.get('upto') else first + at}]", bit) for at, bit in enumerate(bits)]
    return pairs[::-1]


def cell_of(name: str, cell: Dict[str, Any], original: Callable[[str], str]) -> Cell:
    place = place_of(cell["attributes"].get("src", ""))
    place = Place(original(place.file), place.line)
    own = re.search(r":(\d+)\.(\d+)(?:-[\d.]+)?$", cell["attributes"].get("src", ""))
    order = (int(own[1]), int(own[2])) if own else (0, 0)
    return Cell(
        name if cell["hide_name"] else bare(name),
        bool(cell["hide_name"]),
        cell["type"],
        cell["connections"],
        place,
        order,
    )


def place_of(source: str) -> Place:
    """Where the innermost text of a cell stands."""
    found = re.match(r"(.*):(\d+)(?:\.\d+)?(?:-[\d.]+)?$", source.split("|")[-1])
    return Place(found[1], int(found[2])) if found else Place(source, 0)
