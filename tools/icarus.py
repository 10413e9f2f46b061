"""Runs Icarus Verilog over a text and a stimulus, and reads the waves that it dumps."""
import os
import subprocess

# For how long a compilation and a run may take, in seconds.
PATIENCE = 120


class IcarusFailed(Exception):
    """Icarus did not take a text, or did not end."""


def name(of):
    """A name as Verilog writes it in any place."""
    return f"\\{of} "


def bench(top, inputs, outputs, points, horizon, signals):
    """A test bench: registers for the inputs, one assignment for each point (time, input, value)."""
    ports = ", ".join(f".{name(it)}({name(it)})" for it in (*inputs, *outputs))
    declared = "".join(f"  reg {width}{name(it)};\n" for it, width in inputs.items())
    declared += "".join(f"  wire {width}{name(it)};\n" for it, width in outputs.items())
    lines, now = [], 0
    for time, net, value in points:
        if time != now:
            lines.append(f"    #{time - now};")
            now = time
        lines.append(f"    {target(net, inputs)} = 1'b{value};")
    lines.append(f"    #{horizon + 1 - now} $finish(0);")
    body = "\n".join(lines)
    return (
        f"module bench;\n{declared}  {name(top)} top({ports});\n"
        f"  initial begin\n    $dumpfile(\"waves.vcd\");\n    $dumpvars({signals});\n{body}\n  end\nendmodule\n"
    )


def target(net, inputs):
    """An input, or a bit of one that is a vector."""
    if net in inputs:
        return name(net)
    vector, _, index = net.partition("[")
    return f"{name(vector)}[{index}"


def run(texts, timescale, bench_text, folder):
    """The waves that Icarus has for a test bench over texts: for each path of a net, its changes by time."""
    scale = f"`timescale {timescale}\n"
    paths = [write(folder, "scale.v", scale), *texts, write(folder, "bench.v", scale + bench_text)]
    try:
        subprocess.run(
            ["iverilog", "-g2012", "-o", "run.vvp", "-s", "bench", *paths],
            cwd=folder, check=True, capture_output=True, text=True, timeout=PATIENCE,
        )
        subprocess.run(["vvp", "-n", "run.vvp"], cwd=folder, check=True, capture_output=True, text=True, timeout=PATIENCE)
    except subprocess.CalledProcessError as error:
        raise IcarusFailed((error.stderr or error.stdout).strip()[:300]) from None
    except subprocess.TimeoutExpired:
        raise IcarusFailed("it did not end") from None
    with open(os.path.join(folder, "waves.vcd"), encoding="utf-8", errors="surrogateescape") as file:
        return waves_in(file)


def write(folder, name_of_file, text):
    path = os.path.join(folder, name_of_file)
    with open(path, "w", encoding="utf-8", errors="surrogateescape") as file:
        file.write(text)
    return path


def waves_in(lines):
    """The waves of a dump, each as pairs of time and value; a vector has a string of its bits as a value."""
    names, waves, scopes, time = {}, {}, [], 0
    for line in lines:
        words = line.split()
        if not words:
            continue
        if words[0] == "$scope":
            scopes.append(words[2].lstrip("\\"))
        elif words[0] == "$upscope":
            scopes.pop()
        elif words[0] == "$var":
            path = ".".join([*scopes, words[4].lstrip("\\")])
            names.setdefault(words[3], []).append((path, int(words[2]), "".join(words[5:-1])))
        elif words[0][0] == "#":
            time = int(words[0][1:])
        elif words[0][0] in "01xzXZ":
            change(waves, line.strip()[1:], time, words[0][0].lower())
        elif words[0][0] in "bB":
            change(waves, words[1], time, words[0][1:].lower())
    return {path: wide(waves.get(code, []), width) for code, found in names.items() for path, width, _ in found}


def change(waves, code, time, value):
    """Adds a change; what is later in one moment stands."""
    wave = waves.setdefault(code, [])
    if wave and wave[-1][0] == time:
        wave.pop()
    if not wave or wave[-1][1] != value:
        wave.append((time, value))


def wide(wave, width):
    """A wave with each value as wide as its net: what is left out on the left is 0, or the x or z that comes next."""
    return [(time, value.rjust(width, value[0] if value[0] in "xz" else "0")) for time, value in wave]


def up_to(wave, horizon):
    return [it for it in wave if it[0] <= horizon]


def at(wave, time):
    """The value of a wave at a moment."""
    value = "x"
    for when, what in wave:
        if when > time:
            break
        value = what
    return value


