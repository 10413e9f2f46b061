"""What a source calls the nets and gates of an imported design: a file of names beside the text of the design."""
import json
import os
import re
from typing import Dict, Iterator, List, Mapping

SUFFIX = ".names.json"


def names_path(design: str) -> str:
    """Where the names of a design stand: design.names.json beside design.v."""
    return os.path.splitext(design)[0] + SUFFIX


class Names:
    """Gives the names that commands take for those of a source. A name that is not known is given as it is, so that of a
    design which was not imported too."""

    def __init__(self, nets: Mapping[str, str], gates: Mapping[str, str]) -> None:
        self.nets, self.gates = dict(nets), dict(gates)

    def net(self, typed: str) -> str:
        """The name of a net. Scopes may be parted by dots or slashes, and an escaped name may have its backslash."""
        return found(self.nets, typed)

    def gate(self, typed: str) -> str:
        """The name of a gate, or of the gate that drives the first output of a cell."""
        return found(self.gates, typed)

    def write(self, path: str) -> None:
        with open(path, "w", encoding="utf-8", errors="surrogateescape", newline="\n") as file:
            json.dump({"nets": self.nets, "gates": self.gates}, file, indent=1, sort_keys=True)
            file.write("\n")


def spellings(typed: str) -> Iterator[str]:
    """The ways to write a name, the given one first."""
    bare = re.sub(r"(^|[./])\\", r"\1", typed).replace(" ", "")
    yield from (typed, bare, bare.replace("/", "."))


def found(names: Dict[str, str], typed: str) -> str:
    if typed in names:
        return names[typed]
    tried: List[str] = [it for it in spellings(typed) if it in names]
    if tried:
        return names[tried[0]]
    return re.sub(r"(^|[./])\\", r"\1", typed).replace(" ", "") if "\\" in typed else typed


def read_names(design: str) -> Names:
    """The names beside a design, none where there is no such file."""
    try:
        with open(names_path(design), encoding="utf-8", errors="surrogateescape") as file:
            said = json.load(file)
    except FileNotFoundError:
        return Names({}, {})
    return Names(said["nets"], said["gates"])
