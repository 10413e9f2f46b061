"""The functions by which the toolchain's command `rt` tries an edit, so that what is tried here is tried in the same way."""
import importlib.machinery
import importlib.util
import os
import shutil
import signal

import workspace
from workspace import fail


def load():
    found = shutil.which("rt") or fail("there is no command rt: the toolchain is not on the PATH")
    loader = importlib.machinery.SourceFileLoader("rt", os.path.realpath(found))
    made = importlib.util.module_from_spec(importlib.util.spec_from_loader("rt", loader))
    loader.exec_module(made)
    return made


RT = load()
# What `rt` calls an edit that was refused: words in some kits, and true in others.
REFUSALS = [getattr(RT, it) for it in ("REFUSED", "AT_LIMIT") if hasattr(RT, it)] or [True]
CRATES = {}


def begin():
    """Finds the crates of the repository in the current folder. It starts what ends every check when this program ends,
    so it comes before any thread."""
    RT.rtlib.guarded()
    CRATES.update({it.name: it for it in RT.rtlib.crates_below(os.getcwd())})


def checked(crate, texts, flags, kept):
    """Checks a copy of a crate with these texts in place of its own, over what is kept."""
    return RT.checked(CRATES[crate], texts, flags, kept)


def must_fail(crate, edit, kept):
    """Whether the prover refuses an edit, and what to say of it. With nothing kept it checks from nothing."""
    outcome, said = RT.must_fail(CRATES[crate], edit, ["--jobs", "1"], kept)
    return outcome in REFUSALS, said


def processors():
    """How many checks the machine can do at one time, by what this process may use of it."""
    return RT.processors() if hasattr(RT, "processors") else workspace.processors()


def memory():
    """The bytes that checks may take together, and no limit where the kit does not say."""
    return 0.85 * RT.free() if hasattr(RT, "free") else float("inf")


def need_of(crate):
    """The most bytes that a check of a crate is likely to take."""
    return RT.need(CRATES[crate]) if hasattr(RT, "need") else 0


def is_killed(ran):
    """Whether a check was ended from outside, most likely for want of memory."""
    return ran.returncode == -signal.SIGKILL


def is_unread(said, changed):
    """Whether the prover could not read a changed text, so that no contract was tried."""
    return any(RT.unread(line, changed) for line in said.splitlines()) or bool(RT.rtlib.STALE.search(said))
