"""Imports netlists as other tools write them: `python -m gatebench import FILES.. -o design.v`.

yosys reads the Verilog and takes its hierarchy apart; cells of Liberty files become gates by their functions; delays come
from the text, from Liberty or from SDF. docs/import.md of the repository has a page for it."""
from ..names import Names, names_path, read_names
from .fault import Fault, ImportRefused, ToolMissing
from .imports import Imported, Options, import_design
from .liberty_timing import Timing
from .times import Unit, unit_of

__all__ = [
    "Fault",
    "ImportRefused",
    "Imported",
    "Names",
    "Options",
    "Timing",
    "ToolMissing",
    "Unit",
    "import_design",
    "names_path",
    "read_names",
    "unit_of",
]
