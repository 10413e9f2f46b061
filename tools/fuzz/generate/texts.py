"""Design texts."""
from . import layout
from .modules import Maker

MODULES = ["m", "k", "top", "\\m2", "leaf", "m$1"]
SCALES = ["`timescale 1ns/1ps", "`timescale 10ns / 1ns", "`timescale 1 ns/100ps", "`timescale 100 us /* c */ / 1 us",
          "`timescale 1 s/1s", "`timescale (* c *) 1ns/10ns", "`timescale\n1ns\n/\n1ns"]  # fmt: skip


def tokens(rng, slips, delay):
    """The tokens of a text of a few modules, in any order."""
    lower = []
    for name in rng.sample(MODULES, rng.choice([1, 1, 2, 2, 3])):
        maker = Maker(rng, slips, delay)
        lower.append(maker.module(name, lower))
        unused = [it for it in lower[:-1] if it.name not in lower[-1].tokens and it.name + " " not in lower[-1].tokens]
        if unused and rng.random() < 0.95:
            lower = [it for it in lower if it not in unused]
    if rng.random() < slips:
        lower.append(lower[0])
    rng.shuffle(lower)
    scale = rng.choice(SCALES)
    parts = [it.tokens for it in lower]
    if rng.random() < 0.3:
        parts.insert(0, [scale])
    if rng.random() < 0.1:
        parts.append([rng.choice(SCALES) if rng.random() < 0.3 else scale])
    return [token for part in parts for token in part]


def right(rng, delay):
    """A text that mostly spells a design."""
    return layout.join(rng, tokens(rng, 0.0, delay), rng.random() < 0.7).encode()


def near(rng, delay):
    """One with a wrong choice here and there."""
    return layout.join(rng, tokens(rng, rng.choice([0.02, 0.05, 0.1]), delay), rng.random() < 0.5).encode()


def changed(rng, delay):
    """One with a few tokens changed."""
    made = tokens(rng, 0.01, delay)
    for _ in range(rng.choice([1, 1, 1, 2, 3])):
        made = layout.change_token(rng, made) or ["module"]
    return layout.join(rng, made, rng.random() < 0.5).encode()


def mangled(rng, delay):
    """One with a few bytes changed, or cut."""
    made = right(rng, delay)
    for _ in range(rng.choice([1, 1, 2, 4])):
        made = layout.change_bytes(rng, made)
    return made


def soup(rng, delay):
    """Any tokens."""
    made = [rng.choice(layout.TOKENS) for _ in range(rng.choice([1, 3, 8, 20]))]
    return layout.join(rng, ["module", "m", ";", *made, "endmodule"], False).encode()


WAYS = [right] * 5 + [near] * 6 + [changed] * 5 + [mangled] * 3 + [soup]


def text(rng, delay):
    """A text, where gates may have no delay of their own or where they need one."""
    return rng.choice(WAYS)(rng, delay)
