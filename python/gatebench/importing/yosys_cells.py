"""The cells of yosys itself, as gates."""
import re
from typing import Dict, Optional

from .expression import Expression, inverted
from .models import Builder, Model


def both(*parts: Expression) -> Expression:
    return ("and", parts)


def either(*parts: Expression) -> Expression:
    return ("or", parts)


def differ(*parts: Expression) -> Expression:
    return ("xor", parts)


MUX = either(both("A", inverted("S")), both("B", "S"))

FUNCTIONS: Dict[str, Expression] = {
    "BUF": "A",
    "NOT": inverted("A"),
    "AND": both("A", "B"),
    "NAND": inverted(both("A", "B")),
    "OR": either("A", "B"),
    "NOR": inverted(either("A", "B")),
    "XOR": differ("A", "B"),
    "XNOR": inverted(differ("A", "B")),
    "ANDNOT": both("A", inverted("B")),
    "ORNOT": either("A", inverted("B")),
    "MUX": MUX,
    "NMUX": inverted(MUX),
    "AOI3": inverted(either(both("A", "B"), "C")),
    "OAI3": inverted(both(either("A", "B"), "C")),
    "AOI4": inverted(either(both("A", "B"), both("C", "D"))),
    "OAI4": inverted(both(either("A", "B"), either("C", "D"))),
}


def model_of(type: str) -> Optional[Model]:
    """The gates of a cell of yosys, None where it is no gate-level one."""
    found = re.fullmatch(r"\$_([A-Z0-9]+)_(?:([A-Z0-9]+)_)?", type)
    if not found:
        return None
    if found[1] in FUNCTIONS:
        return of_function(FUNCTIONS[found[1]])
    if found[1] == "TBUF":
        builder = Builder(["A", "E", "Y"])
        builder.output("Y", "A", inverted("E"))
        return builder.model(set())
    return stored(found[1], found[2] or "")


def of_function(function: Expression) -> Model:
    pins = sorted({it for it in "ABCDS" if f"'{it}'" in repr(function)})
    builder = Builder([*pins, "Y"])
    builder.output("Y", function)
    return builder.model(set())


def stored(kind: str, form: str) -> Optional[Model]:
    """A flip-flop or a latch, of those that the run of yosys leaves: a positive clock, a clear and a preset that are 0."""
    if kind == "SR" and form == "NN":
        builder = Builder(["S", "R", "Q"])
        builder.hold(("Q", builder.fresh("qn")), "1", "1", ["R"], [builder.stronger("R", "S", "0")[1]])
        return without_constants(builder)
    if (kind, form) not in {
        *(("DFF", it) for it in ("P", "PN0", "PN1")),
        *(("DFFSR", "PNN"), ("DLATCH", "P"), ("DLATCHSR", "PNN")),
    }:
        return None
    clock = "E" if kind.startswith("DLATCH") else "C"
    builder = Builder([clock, "D", *{"PNN": ["S", "R"], "PN0": ["R"], "PN1": ["R"]}.get(form, []), "Q"])
    clear = ["R"] if form in ("PNN", "PN0") else []
    preset = ["R"] if form == "PN1" else [builder.stronger("R", "S", "0")[1]] if form == "PNN" else []
    build = builder.latch if clock == "E" else builder.flip_flop
    build(("Q", builder.fresh("qn")), clock, "D", clear, preset)
    return builder.model(set())


def without_constants(builder: Builder) -> Model:
    """The model without inputs that are always 1, which a nand does not need."""
    model = builder.model(set())
    gates = [it._replace(inputs=tuple(net for net in it.inputs if net != "1")) for it in model.gates]
    return model._replace(gates=gates)
