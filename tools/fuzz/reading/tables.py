"""What docs/SPEC.md has in tables: values, kinds of gates and of nets, delays, limits and the names of faults."""

VALUES = "01xz"
# A constant as a session writes it.
CONSTANTS = {f"1'b{value}": value for value in VALUES}

MAX_TEXT = 4_194_304
MAX_NAME = 1_024
MAX_NUMBER = 4_294_967_295
MAX_BOUND = 65_535
MAX_DELAY = 1_000_000
MAX_TIME = 1_099_511_627_776
MAX_NETS = 65_536
MAX_GATES = 65_536
MAX_POINTS = 1_048_576
MAX_LEVELS = 32
MAX_INSTANCES = 65_536
MAX_LINE = 4_096
MAX_BATCH = 4_096
MAX_HOLDS = 64
MAX_PARTS = 65_536
MAX_WORD = 2**64 - 1

INVERTED = {"0": "1", "1": "0", "x": "x", "z": "z"}


def all_of(inputs):
    return "0" if "0" in inputs else "x" if "x" in inputs else "1"


def any_of(inputs):
    return "1" if "1" in inputs else "x" if "x" in inputs else "0"


def odd_of(inputs):
    return "x" if "x" in inputs else "01"[inputs.count("1") % 2]


def same(inputs):
    return inputs[0]


def inverted(rule):
    return lambda inputs: INVERTED[rule(inputs)]


def passing(opens, rule):
    """A three-state gate that gives what `rule` makes of its data where its control has the value `opens`."""

    def value(inputs):
        data, control = inputs
        return "x" if control == "x" else rule(data) if control == opens else "z"

    return value


# Of each kind of gate the least and the greatest number of inputs, and its output of the inputs, a text of 0, 1 and x.
GATES = {
    "and": (1, 64, all_of),
    "or": (1, 64, any_of),
    "xor": (1, 64, odd_of),
    "nand": (1, 64, inverted(all_of)),
    "nor": (1, 64, inverted(any_of)),
    "xnor": (1, 64, inverted(odd_of)),
    "buf": (1, 1, same),
    "not": (1, 1, inverted(same)),
    "bufif1": (2, 2, passing("1", same)),
    "bufif0": (2, 2, passing("0", same)),
    "notif1": (2, 2, passing("1", inverted(same))),
    "notif0": (2, 2, passing("0", inverted(same))),
}
# The kinds that may have several outputs in a text: all but the last terminal.
MANY_OUTPUTS = ("buf", "not")
# The kinds that may have a turn-off delay.
TURN_OFF = ("bufif1", "bufif0", "notif1", "notif0")


def output_of(kind, inputs):
    """The output of a gate with these inputs; one that is z acts as x."""
    return GATES[kind][2]("".join(inputs).replace("z", "x"))


def fits(kind, count):
    return GATES[kind][0] <= count <= GATES[kind][1]


# Of each kind of net the rule by which it resolves, and its value where no driver gives another one than z.
NETS = {
    "wire": ("equal", "z"),
    "tri": ("equal", "z"),
    "wand": ("and", "z"),
    "triand": ("and", "z"),
    "wor": ("or", "z"),
    "trior": ("or", "z"),
    "tri0": ("equal", "0"),
    "tri1": ("equal", "1"),
}
# Of each rule which value wins where several are there; without one it is x.
WINNERS = {"equal": "", "and": "0x", "or": "1x"}


def resolved(kind, driven):
    """The value of a net of this kind with drivers of these values."""
    values = set(driven) - {"z"}
    rule, pulled = NETS[kind]
    if not values:
        return pulled
    if len(values) == 1:
        return values.pop()
    return next((it for it in WINNERS[rule] if it in values), "x")


def is_joined(port, net):
    """Whether a port of the one kind may be connected to a net of the other."""
    return port in ("wire", "tri") or NETS[port] == NETS[net]


def delay_to(value, delays):
    """How long a change to a value takes, of the delays of a gate: rise, fall, and the turn-off delay where it has one."""
    rise, fall, *off = delays
    return {"1": rise, "0": fall, "z": off[0] if off else min(rise, fall), "x": min(delays)}[value]


# The words of a text that it uses, beside the kinds of gates and of nets.
OTHER_WORDS = ("module", "endmodule", "input", "output")
# The words of Verilog (IEEE 1364-2005, annex B), and those of them that are names here.
VERILOG = """
    always and assign automatic begin buf bufif0 bufif1 case casex casez cell cmos config deassign default defparam design
    disable edge else end endcase endconfig endfunction endgenerate endmodule endprimitive endspecify endtable endtask event
    for force forever fork function generate genvar highz0 highz1 if ifnone incdir include initial inout input instance integer
    join large liblist library localparam macromodule medium module nand negedge nmos nor noshowcancelled not notif0 notif1 or
    output parameter pmos posedge primitive pull0 pull1 pulldown pullup pulsestyle_ondetect pulsestyle_onevent rcmos real
    realtime reg release repeat rnmos rpmos rtran rtranif0 rtranif1 scalared showcancelled signed small specify specparam
    strong0 strong1 supply0 supply1 table task time tran tranif0 tranif1 tri tri0 tri1 triand trior trireg unsigned use uwire
    vectored wait wand weak0 weak1 while wire wor xnor xor
"""
FREE_WORDS = """
    cell config design endconfig highz0 highz1 ifnone incdir include instance liblist library noshowcancelled
    pulsestyle_ondetect pulsestyle_onevent showcancelled use
"""
USED_WORDS = {*GATES, *NETS, *OTHER_WORDS}
LEFT_OUT = set(VERILOG.split()) - set(FREE_WORDS.split()) - USED_WORDS

# The faults of a text whose code is 11 have the name of the edit's cause.
TEXT_FAULTS = {
    "Text": 1, "Syntax": 2, "Unsupported": 3, "UnknownModule": 4, "Recursive": 5, "NoTop": 6, "ManyTops": 7,
    "WidthMismatch": 8, "PortKind": 9, "PortCount": 10, "BadName": 11, "ZeroDelay": 11, "DelayTooLarge": 11, "TooMany": 11,
    "DuplicateName": 11, "WrongArity": 11, "DrivenInput": 11,
}  # fmt: skip
CAUSES = {
    1: "UnknownNet", 2: "UnknownGate", 3: "DuplicateName", 4: "BadName", 5: "ZeroDelay", 6: "DelayTooLarge", 7: "WrongArity",
    8: "DrivenInput", 9: "NotInput", 10: "NetInUse", 11: "TimeTooLarge", 12: "NoSuchPoint", 13: "TooMany", 16: "BadCommand",
    17: "LongLine", 18: "UnknownHold", 19: "NoBatch", 20: "InBatch",
    21: "NoTurnOff",
}  # fmt: skip
CODES = {name: code for code, name in CAUSES.items()}


class Fault(Exception):
    """A design text is refused: the name of its fault, and where in the text, as a line or as a place."""

    def __init__(self, name, place=None, line=None):
        super().__init__(name)
        self.name, self.place, self.line = name, place, line


class Refused(Exception):
    """A command is refused, for a cause with this name; a word or number of it may be at fault."""

    def __init__(self, name, word=None):
        super().__init__(name)
        self.code, self.word = CODES[name], word
