"""Where the program gatebench is, and the words that start it."""
import os
import shutil
from typing import List, Optional

from .errors import ProgramMissing

# The environment variable that names the program.
VARIABLE = "GATEBENCH"

# The name under which the program answers the questions of tools too; by any other name it does not know them.
TOOL = "gatetool"


def program_path(given: Optional[str] = None) -> str:
    """The path of the program: the given one; else that of the environment variable GATEBENCH; else bin/gatebench of
    the repository that this package lies in; else `gatebench` on the PATH. ProgramMissing where there is none."""
    named = given or os.environ.get(VARIABLE)
    if named:
        return named
    repository = os.path.dirname(os.path.dirname(os.path.dirname(os.path.abspath(__file__))))
    built = os.path.join(repository, "bin", "gatebench")
    found = built if os.access(built, os.X_OK) else shutil.which("gatebench")
    if found is None:
        raise ProgramMissing(f"there is no program gatebench: build it by `make demo`, or unproved by `make try`, or name it in {VARIABLE}")
    return found


def command_words(design: str, horizon: Optional[int], delay: Optional[int], workers: Optional[int]) -> List[str]:
    """The words that start the program, its name first. An option that is None is left out, so it is the program's default."""
    options = (("--horizon", horizon), ("--delay", delay), ("--workers", workers))
    given = [word for name, value in options if value is not None for word in (name, str(value))]
    return [TOOL, *given, "--", design]


def tool_path(program: str) -> str:
    """The file gatetool beside a program gatebench, where there is one, else the program itself. A script, as `make try` leaves one,
    is not told the name that it is started by, and goes by that of its file."""
    folder, name = os.path.split(program)
    tool = os.path.join(folder, TOOL)
    return tool if folder and name == "gatebench" and os.access(tool, os.X_OK) else program
