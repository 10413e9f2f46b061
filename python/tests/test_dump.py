"""Dumps, read from texts that are written by hand."""
import unittest

from gatebench import BadReply, Wave, dump_of
from gatebench.values import changes_of

TEXT = """\
$version gatebench $end
$timescale 10 ns $end
$scope module top $end
$var wire 1 ! a $end
$scope module u $end
$var wand 1 " y $end
$scope module v $end
$var wire 1 !! y $end
$upscope $end
$var wire 1 "! q $end
$upscope $end
$upscope $end
$enddefinitions $end
#0
$dumpvars
0!
x"
z!!
1"!
$end
#4
1!
1!!
#9
0"
#12
"""


class Dumps(unittest.TestCase):
    def test_a_dump_has_all_waves_in_the_order_of_the_nets(self) -> None:
        dump = dump_of(TEXT.splitlines())
        self.assertEqual((dump.unit, dump.horizon), ("10 ns", 12))
        self.assertEqual(list(dump.waves), ["a", "u.y", "u.v.y", "u.q"])
        wanted = {"a": "0 0 4 1", "u.y": "0 x 9 0", "u.v.y": "0 z 4 1", "u.q": "0 1"}
        for net, words in wanted.items():
            self.assertEqual(dump.waves[net], Wave(net, changes_of(tuple(words.split())), 12))
            self.assertEqual(dump.waves[net].net, net)

    def test_what_is_no_dump(self) -> None:
        for wrong in (TEXT.split("$enddefinitions")[0], TEXT + "b0101 !\n", TEXT + "0?\n"):
            with self.assertRaises(BadReply):
                dump_of(wrong.splitlines())
