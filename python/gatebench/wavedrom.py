"""Waves as WaveDrom takes them: a JSON text that its editor, and many documents, draw."""
import json
from math import gcd

from .picture import Picture, spans
from .wave import Wave


def wavedrom(picture: Picture) -> str:
    """The picture as WaveJSON. A cell has as many moments as all changes of the window allow."""
    step = 0
    for wave in picture.waves:
        for change in wave.between(picture.start + 1, picture.end):
            step = gcd(step, change.time - picture.start)
    step = step or picture.moments
    signals = [{"name": it.net, "wave": cells(it, picture, step)} for it in picture.waves]
    text = f"from {picture.start} on, a cell is {step} x {picture.unit}"
    return json.dumps({"signal": signals, "head": {"text": text}}, indent=1) + "\n"


def cells(wave: Wave, picture: Picture, step: int) -> str:
    """A character for each cell: the value, or a dot where it goes on."""
    found = spans(wave, picture.start, picture.end)
    return "".join(it.value + "." * (-(-(it.end - it.start) // step) - 1) for it in found)
