"""The first pass over a design text: token by token, what it says of each module, or its first fault."""
from .modules import Gate, Instance, Module, Net, Terminal, Text
from .tables import GATES, MANY_OUTPUTS, MAX_BOUND, MAX_DELAY, MAX_NAME, NETS, TURN_OFF, Fault, fits
from .tokens import tokens

NAMES = ("NAME", "ESCAPED")
DIRECTIONS = ("input", "output")


def sound(token):
    """The name that a token spells."""
    name = token.says
    if len(name) > MAX_NAME or "." in name or "'" in name or name == "$end":
        raise Fault("BadName", token.place)
    return name


class Reader:
    """Reads the tokens of a text one after the other; `next` is the one that comes."""

    def __init__(self, text, default_delay):
        self.tokens = tokens(text)
        self.default_delay = default_delay
        self.text = Text()
        self.step()

    def step(self):
        """Goes on by one token, and gives the one that was next."""
        passed = getattr(self, "next", None)
        self.next = next(self.tokens)
        return passed

    def refuse(self):
        """The text can't go on with the next token."""
        kind = self.next.kind
        scale = kind == "TIMESCALE" and self.text.unit not in (None, self.next.says)
        name = "Text" if kind == "TEXT" else "Unsupported" if kind in ("LEFT_OUT", "OTHER") or scale else "Syntax"
        raise Fault(name, self.next.place)

    def at(self, *says):
        """Whether the next token is one of these words or marks."""
        return self.next.kind in ("WORD", "MARK") and self.next.says in says

    def take(self, *says):
        if not self.at(*says):
            self.refuse()
        return self.step().says

    def take_kind(self, kind):
        if self.next.kind != kind:
            self.refuse()
        return self.step()

    def at_name(self):
        return self.next.kind in NAMES

    def name_token(self):
        """Takes a name, which is sound; its token."""
        if not self.at_name():
            self.refuse()
        sound(self.next)
        return self.step()

    def listed(self, item, end):
        """Takes items with commas between them, up to this mark and with it."""
        item()
        while self.take(",", end) == ",":
            item()

    # Texts and modules.

    def read(self):
        while self.next.kind != "END":
            if self.next.kind == "TIMESCALE":
                self.timescale()
            else:
                self.module()
        return self.text

    def timescale(self):
        if self.text.unit not in (None, self.next.says):
            self.refuse()
        self.text.unit = self.step().says

    def module(self):
        place = self.next.place
        self.take("module")
        token = self.name_token()
        if token.says in self.text.modules:
            raise Fault("DuplicateName", token.place)
        self.made = self.text.modules[token.says] = Module(token.says, place)
        if self.take("(", ";") == "(":
            self.header()
            self.take(";")
        while not self.at("endmodule"):
            self.item()
        if any(not self.made.nets[port].direction for port in self.made.ports):
            raise Fault("Syntax", self.next.place)
        self.step()

    def header(self):
        if self.at(")"):
            self.step()
        elif self.at(*DIRECTIONS):
            self.made.form = "inline"
            self.listed(self.inline_port, ")")
        else:
            self.made.form = "older"
            self.listed(self.older_port, ")")

    def older_port(self):
        self.port(self.name_token(), Net())

    def port(self, token, net):
        if token.says in self.made.ports:
            raise Fault("DuplicateName", token.place)
        if net.direction:
            self.come(token, net)
        self.made.ports.append(token.says)
        self.made.nets[token.says] = net

    def inline_port(self):
        if self.at(*DIRECTIONS):
            self.last = self.step().says, self.net_kind(), self.range()
        token = self.name_token()
        direction, kind, bounds = self.last
        self.port(token, Net(bounds, kind, direction))

    # Declarations.

    def net_kind(self):
        return self.step().says if self.at(*NETS) else ""

    def range(self):
        if not self.at("["):
            return None
        self.step()
        left = self.bound()
        self.take(":")
        right = self.bound()
        self.take("]")
        return left, right

    def bound(self):
        """Takes the number of a bound or an index."""
        if self.next.kind == "NUMBER" and self.next.says > MAX_BOUND:
            raise Fault("TooMany", self.next.place)
        return self.take_kind("NUMBER").says

    def item(self):
        if self.at(*DIRECTIONS) and self.made.form != "inline":
            direction = self.step().says
            self.declarations(direction)
        elif self.at(*NETS):
            self.declarations("")
        elif self.at(*GATES):
            self.gates()
        elif self.at_name():
            self.instances()
        else:
            self.refuse()

    def declarations(self, direction):
        kind, bounds = self.net_kind(), self.range()
        self.listed(lambda: self.declaration(Net(bounds, kind, direction)), ";")

    def declaration(self, said):
        if said.direction and self.at_name() and self.next.says not in self.made.ports:
            raise Fault("Syntax", self.next.place)
        token = self.name_token()
        net = self.made.nets.setdefault(token.says, Net())
        if net.implicit or (net.direction and said.direction) or (net.kind and said.kind):
            raise Fault("DuplicateName", token.place)
        if not net.is_declared():
            self.come(token, said)
        elif net.range != said.range:
            raise Fault("WidthMismatch", token.place)
        net.range, net.kind, net.direction = said.range, net.kind or said.kind, net.direction or said.direction

    def come(self, token, net):
        """A net comes to be, with its bits, none of which has the name of another net or bit of the module."""
        names = net.flat(token.says)
        if not self.made.flat.isdisjoint(names):
            raise Fault("DuplicateName", token.place)
        self.made.flat.update(names)

    # Gates.

    def delay(self):
        """Takes a number of a delay."""
        if self.next.kind == "NUMBER" and not 0 < self.next.says <= MAX_DELAY:
            raise Fault("DelayTooLarge" if self.next.says else "ZeroDelay", self.next.place)
        return self.take_kind("NUMBER").says

    def delays(self, most):
        """Takes one delay, or up to so many between brackets; one is rise and fall."""
        if not self.at("("):
            return (self.delay(),) * 2
        self.step()
        delays = [self.delay()]
        while len(delays) < most and self.at(","):
            self.step()
            delays.append(self.delay())
        self.take(")")
        return tuple(delays) if len(delays) > 1 else (delays[0],) * 2

    def gates(self):
        word = self.step()
        delays = (self.default_delay,) * 2
        if self.at("#"):
            self.step()
            delays = self.delays(3 if word.says in TURN_OFF else 2)
        elif not self.default_delay:
            raise Fault("ZeroDelay", word.place)
        self.listed(lambda: self.gate(word.says, delays), ";")

    def instance_name(self):
        """Takes a name of a gate or of an instance of a module."""
        token = self.name_token()
        if token.says in self.made.taken:
            raise Fault("DuplicateName", token.place)
        self.made.taken.add(token.says)
        return token

    def gate(self, kind, delays):
        name = self.instance_name().says if self.at_name() else None
        terminals = []
        self.take("(")
        while not terminals or self.at(","):
            if terminals:
                self.step()
            terminals.append(self.terminal(False))
        if not self.at(")"):
            self.refuse()
        self.made_gates(kind, delays, name, terminals, self.next.place)
        self.step()

    def made_gates(self, kind, delays, name, terminals, place):
        """The gates of an instance whose `)` stands at this place: one for each output."""
        outputs = len(terminals) - 1 if kind in MANY_OUTPUTS else 1
        if outputs < 1 or not fits(kind, len(terminals) - outputs):
            raise Fault("WrongArity", place)
        if any(it.value for it in terminals[:outputs]):
            raise Fault("PortKind", place)
        if name is None:
            self.made.unnamed += 1
            name = f"${self.made.unnamed}"
            self.take_made_name(name, place)
        names = [name] if outputs == 1 else [f"{name}${number}" for number in range(1, outputs + 1)]
        for made in names if outputs > 1 else []:
            self.take_made_name(made, place)
        self.made.gates += [Gate(it, kind, delays, out, terminals[outputs:]) for it, out in zip(names, terminals)]

    def take_made_name(self, name, place):
        if name in self.made.taken:
            raise Fault("DuplicateName", place)
        self.made.taken.add(name)

    def terminal(self, may_be_vector):
        """Takes a terminal of a gate, or a connection, which may be a whole vector."""
        if self.next.kind == "CONST":
            return Terminal(value=self.step().says)
        token = self.name_token()
        net = self.made.nets.setdefault(token.says, Net())
        if not net.is_declared():
            self.come(token, net)
            net.implicit = True
        if not self.at("["):
            if net.range is not None and not may_be_vector:
                raise Fault("WidthMismatch", token.place)
            return Terminal(token.says)
        self.step()
        place, index = self.next.place, self.bound()
        if net.range is None or not min(net.range) <= index <= max(net.range):
            raise Fault("WidthMismatch", place)
        self.take("]")
        return Terminal(token.says, index)

    # Instances of modules.

    def instances(self):
        module = self.name_token().says
        self.listed(lambda: self.instance(module), ";")

    def instance(self, module):
        token = self.instance_name()
        made = Instance(module, token.says, token.place)
        self.made.instances.append(made)
        self.take("(")
        if self.at("."):
            self.listed(lambda: made.by_name.append(self.named_connection()), ")")
        elif self.at(")"):
            self.step()
        else:
            self.listed(lambda: made.by_order.append(self.connection(",", ")")), ")")

    def connection(self, *ends):
        return None if self.at(*ends) else self.terminal(True)

    def named_connection(self):
        self.take(".")
        port = self.name_token().says
        self.take("(")
        terminal = self.connection(")")
        self.take(")")
        return port, terminal
