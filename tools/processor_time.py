"""The processor time of a command's parts: of each program that it starts, by a name that the caller gives it.

Read from /proc while the command runs, so what a program does after its last look, less than a second, is left out."""
import os
import subprocess
import threading

TICKS = os.sysconf("SC_CLK_TCK")
PAUSE = 0.5


def read(process, name):
    with open(f"/proc/{process}/{name}", "rb") as file:
        return file.read()


def numbers(process):
    """What /proc says of a process behind its name: at 1 its parent, at 11 and 12 its time, at 19 when it began."""
    return read(process, "stat").rpartition(b")")[2].split()


def descendants():
    """This process and all that it started, each with what /proc says of it."""
    every = {}
    for process in filter(str.isdigit, os.listdir("/proc")):
        try:
            every[int(process)] = numbers(process)
        except OSError:
            continue
    children = {}
    for process, said in every.items():
        children.setdefault(int(said[1]), []).append(process)
    found, waiting = {}, [os.getpid()]
    while waiting:
        process = waiting.pop()
        if process in every:
            found[process] = every[process]
            waiting += children.get(process, [])
    return found


class Watch:
    """Looks at the processes that this one started until it is told to stop. `part_of(words, folder)` names the part of
    the work that a process with these words does in this folder; None leaves it out."""

    def __init__(self, part_of):
        self.part_of, self.seen, self.ended = part_of, {}, threading.Event()
        self.thread = threading.Thread(target=self.look_on, daemon=True)
        self.thread.start()

    def look(self):
        for process, said in descendants().items():
            try:
                words = read(process, "cmdline").decode(errors="replace").split("\0")
                part = self.part_of(words, os.readlink(f"/proc/{process}/cwd"))
            except (OSError, IndexError):
                continue
            if part is not None:
                self.seen[process, said[19]] = part, (int(said[11]) + int(said[12])) / TICKS

    def look_on(self):
        while not self.ended.wait(PAUSE):
            self.look()

    def parts(self):
        """Stops, and gives the seconds of each part."""
        self.ended.set()
        self.thread.join()
        found = {}
        for part, seconds in self.seen.values():
            found[part] = found.get(part, 0) + seconds
        return found


def stream(words, folder, write):
    """Runs a command, hands on each line of what it prints, and gives its status."""
    started = subprocess.Popen(words, cwd=folder, stdin=subprocess.DEVNULL, stdout=subprocess.PIPE,
                               stderr=subprocess.STDOUT, text=True, errors="replace")
    for line in started.stdout:
        write(line)
    return started.wait()
