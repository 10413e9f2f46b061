"""A run of bin/gatebench's crate by the toolchain's unproved way, whose program is kept.

The toolchain builds a program for one run among its temporary files, and takes it away. So each file there that can be run gets a
second name as soon as it is seen, and the design is given as a pipe: once the program waits for the text, the file that says it is
gatebench is copied. Where there is none no program is kept; the run is the same."""
import contextlib
import errno
import os
import shutil
import stat
import subprocess
import tempfile
import time

from workspace import ROOT, folder_of, link

KEPT, WRAPPER, TOOL = (os.path.join(ROOT, "bin", name) for name in ("gatebench-unproved", "gatebench", "gatetool"))
# What bin/gatebench is until a demo puts the proved program there. It hands on the name by which it was started: as gatetool the
# program knows the questions of tools.
MARK = "#!/bin/sh\n# gatebench as `make try` leaves it, unproved\n"
SCRIPT = MARK + """echo 'gatebench: UNPROVED, as make try left it; make demo builds the proved program' >&2
exec bash -c 'exec -a "$0" "$@"' "$0" "$(dirname "$(realpath "$0")")/gatebench-unproved" "$@"
"""


class Ended:
    """How a run ended: its status, and what was written on the two streams. `is_kept` says whether its program is in bin/."""

    def __init__(self, status, out, err, is_kept):
        self.status, self.out, self.err, self.is_kept = status, out, err, is_kept


def run(design, commands, options):
    """Runs commands over the text of a design, and keeps the program."""
    with tempfile.TemporaryDirectory(prefix="try-") as folder:
        pipe, given, out, err = (os.path.join(folder, name) for name in ("design.v", "commands", "out", "err"))
        os.mkfifo(pipe)
        built = Built(folder)
        write(given, commands)
        with open(given, "rb") as stdin, open(out, "wb") as stdout, open(err, "wb") as stderr:
            words = ["rt", "try", "--", pipe, *options]
            environment = {**os.environ, "TMPDIR": built.folder}
            process = subprocess.Popen(words, cwd=folder_of("app"), env=environment, stdin=stdin, stdout=stdout, stderr=stderr)
            is_kept = feed(process, pipe, design, built)
            status = process.wait()
        return Ended(status, read(out), read(err), is_kept)


def feed(process, pipe, design, built):
    """Gives the text to the program once it waits for it; whether its file could be kept."""
    end = opened(process, pipe, built)
    if end is None:
        return False
    try:
        is_kept = keep(built)
        os.set_blocking(end, True)
        with open(end, "wb", closefd=False) as file:
            file.write(design.encode("utf-8", "surrogateescape"))
        return is_kept
    except BrokenPipeError:
        # It ended before it had read all: its status says why.
        return is_kept
    finally:
        os.close(end)


def opened(process, pipe, built):
    """The end of a pipe to write to, as soon as something reads it; None where the process ends before."""
    while process.poll() is None:
        built.look()
        try:
            return os.open(pipe, os.O_WRONLY | os.O_NONBLOCK)
        except OSError as error:
            if error.errno != errno.ENXIO:
                raise
            time.sleep(0.05)
    return None


class Built:
    """The temporary files of the toolchain, and the programs that were seen among them."""

    def __init__(self, top):
        self.folder, self._kept = (os.path.join(top, name) for name in ("built", "seen"))
        os.mkdir(self.folder)
        os.mkdir(self._kept)

    def look(self):
        """Gives each file that can be run a second name."""
        for inside, _, names in os.walk(self.folder):
            for path in (os.path.join(inside, it) for it in names):
                with contextlib.suppress(OSError):
                    found = os.lstat(path)
                    if stat.S_ISREG(found.st_mode) and os.access(path, os.X_OK):
                        os.link(path, os.path.join(self._kept, str(found.st_ino)))

    def programs(self):
        """What was seen, and what is there now."""
        self.look()
        return [os.path.join(self._kept, it) for it in os.listdir(self._kept)]


def keep(built):
    """Copies the program that was built into bin/, with a script before it that says what it is, unless a program is there.
    Whether that could be done."""
    if os.path.exists(WRAPPER) and not is_unproved(WRAPPER):
        return False
    os.makedirs(os.path.dirname(KEPT), exist_ok=True)
    if not any(copied(it) for it in built.programs()):
        return False
    write(WRAPPER, SCRIPT)
    os.chmod(WRAPPER, 0o755)
    link(os.path.basename(WRAPPER), TOOL)
    return True


def copied(path):
    """Whether a program is gatebench, and could be copied."""
    with contextlib.suppress(OSError, subprocess.TimeoutExpired), tempfile.TemporaryDirectory(dir=os.path.dirname(KEPT)) as folder:
        new = os.path.join(folder, "program")
        shutil.copyfile(path, new)
        os.chmod(new, 0o755)
        said = subprocess.run([new, "--version"], capture_output=True, text=True, timeout=60)
        if said.returncode == 0 and said.stdout.startswith("gatebench "):
            os.replace(new, KEPT)
            return True
    return False


def is_unproved(program):
    """Whether a file is what this leaves as bin/gatebench."""
    with open(program, "rb") as file:
        return file.read(len(MARK)) == MARK.encode()


def write(path, data):
    with open(path, "wb") as file:
        file.write(data if isinstance(data, bytes) else data.encode("utf-8", "surrogateescape"))


def read(path):
    with open(path, encoding="utf-8", errors="replace") as file:
        return file.read()
