"""Scopes of dumps: which are closed before a net and which are opened, by the parts of its name and of that of the net before."""
import unittest
from typing import List, Tuple

from ..making import WithDesigns, lines_of

# What the row shows, the lines that make nets, the dump from behind the top's scope to the end of its definitions, and its values.
ROWS: List[Tuple[str, str, str, str]] = [
    (
        "a scope that was closed is opened again",
        "net u.a wand; input b; net u.c tri",
        """$scope module u $end
$var wand 1 ! a $end
$upscope $end
$var wire 1 " b $end
$scope module u $end
$var tri 1 # c $end
$upscope $end
""",
        'z!\nx"\nz#\n',
    ),
    (
        "inner scopes, and a net with the name of one",
        "net u.v.c wire; net u.d wire; net u.uv.e wire; net u.v wire",
        """$scope module u $end
$scope module v $end
$var wire 1 ! c $end
$upscope $end
$var wire 1 " d $end
$scope module uv $end
$var wire 1 # e $end
$upscope $end
$var wire 1 $ v $end
$upscope $end
""",
        'z!\nz"\nz#\nz$\n',
    ),
    (
        "scopes of one name in different scopes are different ones",
        "net u.v.a wire; net v.v.a wire",
        """$scope module u $end
$scope module v $end
$var wire 1 ! a $end
$upscope $end
$upscope $end
$scope module v $end
$scope module v $end
$var wire 1 " a $end
$upscope $end
$upscope $end
""",
        'z!\nz"\n',
    ),
]

# What stands before the nets, behind them, and behind their values.
BEFORE = "$version gatebench $end\n$timescale 1 ns $end\n$scope module m $end\n"
BEHIND = "$upscope $end\n$enddefinitions $end\n#0\n$dumpvars\n"
LAST = "$end\nok 1"


class Scopes(WithDesigns):
    def test_scopes_of_names(self) -> None:
        for name, design, nets, values in ROWS:
            with self.subTest(name):
                wanted = f"{BEFORE}{nets}{BEHIND}{values}{LAST}"
                self.assertEqual(self.behind(lines_of(design), ["vcd"]), [wanted.splitlines()])


if __name__ == "__main__":
    unittest.main()
