"""What the tools share: the crates of crates.txt, and commands run side by side with their processor time."""
import os
import shutil
import subprocess
import sys
import tempfile
import time

ROOT = os.path.dirname(os.path.dirname(os.path.abspath(__file__)))


def fail(text):
    sys.exit(f"{os.path.basename(sys.argv[0])}: {text}")


def processors():
    """How many processors this process may use, which may be fewer than the machine has."""
    return len(os.sched_getaffinity(0))


def folder_of(crate, root=ROOT):
    return os.path.join(root, "crates", crate)


def crates():
    """Each crate with the crates of this repository that it names, lowest first."""
    named = {}
    with open(os.path.join(ROOT, "crates.txt"), encoding="utf-8") as file:
        for line in file:
            head, colon, libraries = line.partition("#")[0].partition(":")
            if colon:
                named[head.split()[0]] = libraries.split()
    return {crate: [it for it in libraries if it in named] for crate, libraries in named.items()}


def below(crate, named):
    """The crates that a crate stands on, lowest first, without itself."""
    found = []
    for it in named[crate]:
        found += [lower for lower in [*below(it, named), it] if lower not in found]
    return found


def is_program(crate):
    return os.path.exists(os.path.join(folder_of(crate), "src", "main.rt"))


def share(source, target):
    """A copy of a folder whose files are the same ones until one of them is replaced, where the file system has links."""

    def link(file, to):
        try:
            os.link(file, to)
        except OSError:
            shutil.copy2(file, to)

    shutil.copytree(source, target, copy_function=link)


def make_room(top, crate, named):
    """A repository of its own, in the folder `top`, with a crate and those below it and all that their checks kept. Work
    in it waits for no other, since `rt` keeps a crate and those below it to itself while it works."""
    room = tempfile.mkdtemp(dir=top)
    inside = [*below(crate, named), crate]
    with open(os.path.join(ROOT, "crates.txt"), encoding="utf-8") as file:
        lines = [line for line in file if line.replace(":", " ").split()[:1] in [[it] for it in inside]]
    with open(os.path.join(room, "crates.txt"), "w", encoding="utf-8") as file:
        file.writelines(lines)
    for it in inside:
        share(folder_of(it), folder_of(it, room))
    return room


class Ended:
    """A command that has ended: what it wrote, its status, and its wall and processor seconds."""

    def __init__(self, key, text, status, wall, spent):
        self.key, self.text, self.status, self.wall, self.spent = key, text, status, wall, spent


class Lanes:
    """Commands side by side, as many as there are lanes."""

    def __init__(self, lanes):
        self.lanes, self.running = lanes, {}

    def is_full(self):
        return len(self.running) >= self.lanes

    def start(self, key, words, folder, log):
        with open(log, "w", encoding="utf-8") as out:
            started = subprocess.Popen(words, cwd=folder, stdin=subprocess.DEVNULL, stdout=out, stderr=subprocess.STDOUT)
        self.running[started.pid] = key, log, started, time.time()

    def ended(self):
        """Waits for the next command that ends."""
        while True:
            process, status, used = os.wait4(-1, 0)
            if process in self.running:
                break
        key, log, started, since = self.running.pop(process)
        started.returncode = os.waitstatus_to_exitcode(status)
        with open(log, encoding="utf-8", errors="replace") as file:
            text = file.read()
        return Ended(key, text, started.returncode, time.time() - since, used.ru_utime + used.ru_stime)

    def stop(self):
        for _, _, started, _ in self.running.values():
            started.terminate()


def link(name, path):
    """Makes `path` a link to the file of this name beside it, also where something is there."""
    if os.path.lexists(f"{path}.new"):
        os.remove(f"{path}.new")
    os.symlink(name, f"{path}.new")
    os.replace(f"{path}.new", path)
