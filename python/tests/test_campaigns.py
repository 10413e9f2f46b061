"""Campaigns: their what-ifs, what is said of them, by whatever executor they are run."""
import concurrent.futures
import multiprocessing
import os
import subprocess
import unittest
from typing import List
from unittest import mock

from gatebench import Gate, Wave, netlist_of
from gatebench.campaigns import (
    Bench,
    Detects,
    Differs,
    NoPulse,
    Verdict,
    WhatIf,
    bench_of,
    each_delay,
    faults_of,
    run,
    run_all,
    scaled,
    spread,
    stimuli,
)
from gatebench.campaigns.run import Runner, run_piece
from gatebench.edits import MAX_BATCH, batches
from gatebench.program import program_path
from gatebench.values import changes_of

from .support import ROOT, WithFolder, first_python_with

MULTIPLEXER = """
module mux(input a, b, s, output y);
  not #4 inv(sn, s);
  and #2 pick_a(p, a, s), pick_b(q, b, sn);
  or  #1 out(y, p, q);
endmodule
"""
# With a and b at 1 and s falling at 20, p falls at 22, sn rises at 24 and q at 26: y is 0 from 23 to 27.
STIMULUS = ["stim a 0 1", "stim b 0 1", "stim s 0 1", "stim s 20 0"]
GATES = netlist_of(MULTIPLEXER).gates


def bench() -> Bench:
    return bench_of(MULTIPLEXER, STIMULUS, ["y"], horizon=60)


def wave(net: str, text: str, horizon: int = 20) -> Wave:
    return Wave(net, changes_of(tuple(text.split())), horizon)


class Judges(unittest.TestCase):
    good = {"y": wave("y", "0 x 3 1 10 0"), "z": wave("z", "0 0")}

    def test_a_fault_is_seen_where_a_known_value_is_the_other_one(self) -> None:
        faulty = {"y": wave("y", "0 x 3 1 10 1"), "z": wave("z", "0 0 12 1")}
        self.assertEqual(Detects()(self.good, faulty), Verdict("detected", 10, "y", "1, not 0"))
        self.assertEqual(Detects((9, 19))(self.good, faulty), Verdict("detected", 19, "y", "1, not 0"))
        self.assertEqual(Detects((9,))(self.good, faulty), Verdict("undetected"))

    def test_x_and_z_in_its_place_are_seen_possibly(self) -> None:
        faulty = {"y": wave("y", "0 1 3 z 10 0"), "z": wave("z", "0 0")}
        # At 0 the good value is x: whatever stands there, nothing is seen.
        self.assertEqual(Detects()(self.good, faulty), Verdict("possible", 3, "y", "z, not 1"))
        self.assertEqual(Detects((2, 10))(self.good, faulty), Verdict("undetected"))

    def test_a_certain_difference_counts_before_an_earlier_possible_one(self) -> None:
        faulty = {"y": wave("y", "0 x 3 1 10 0"), "z": wave("z", "0 x 15 1")}
        self.assertEqual(Detects()(self.good, faulty), Verdict("detected", 15, "z", "1, not 0"))

    def test_what_differs_and_from_when(self) -> None:
        now = {"y": wave("y", "0 x 4 1 10 0"), "z": wave("z", "0 z")}
        self.assertEqual(Differs()(self.good, now), Verdict("differs", 0, "z", "z, not 0"))
        self.assertEqual(Differs()(self.good, dict(self.good)), Verdict("same"))

    def test_short_pulses(self) -> None:
        now = {"y": wave("y", "0 0 5 1 8 0 12 1 13 0"), "z": wave("z", "0 0")}
        note = "a pulse of 1 that lasts 1, and not 2 or more"
        self.assertEqual(NoPulse(2)(self.good, now), Verdict("broken", 12, "y", note))
        self.assertEqual(NoPulse(2, start=13)(self.good, now), Verdict("kept"))


class Sweeps(unittest.TestCase):
    def test_each_delay_of_a_gate(self) -> None:
        # The pulse of y lasts as long as the inverter takes.
        what_ifs = list(each_delay([GATES[0]], [1, 2, 3, 4]))
        self.assertEqual(what_ifs[1], WhatIf("inv takes 2", "", ("delay inv 2 2",), ("delay inv 4 4",)))
        self.assertEqual([it.status for it in run_all(bench(), what_ifs, NoPulse(3))], ["broken", "broken", "kept", "kept"])
        # The rise of y comes at 24, 25, 26, and as it was.
        self.assertEqual(run_all(bench(), what_ifs, Differs()), [
            *(Verdict("differs", time, "y", "1, not 0") for time in (24, 25, 26)), Verdict("same"),
        ])  # fmt: skip

    def test_delays_at_percents_are_rounded_and_one_at_least(self) -> None:
        gate = Gate("g", "bufif1", 5, 1, 30, "y", ("a", "b"))
        edits = [it.edits for it in scaled([gate], [10, 50, 150])]
        # 0.5, 0.1 and 3; 2.5, 0.5 and 15; 7.5, 1.5 and 45.
        self.assertEqual(edits, [("delay g 1 1/3",), ("delay g 3 1/15",), ("delay g 8 2/45",)])

    def test_a_spread_stays_in_its_percents_and_is_the_same_for_a_seed(self) -> None:
        gates = [Gate(f"g{it}", "not", 1000, 2000, None, "y", ("a",)) for it in range(40)]
        first, second, again = spread(gates, 20, [1, 2, 1])
        self.assertEqual((first.edits, first.undo), (again.edits, again.undo))
        self.assertNotEqual(first.edits, second.edits)
        self.assertEqual(first.undo, tuple(f"delay g{it} 1000 2000" for it in range(40)))
        for edit in first.edits:
            rise, fall = map(int, edit.split()[2:])
            self.assertTrue(800 <= rise <= 1200 and fall == 2 * rise)

    def test_stimulus_of_seeds_is_taken_away_again(self) -> None:
        [only] = stimuli(["a", "b"], 10, 25, [3])
        self.assertEqual([it.rsplit(" ", 1)[0] for it in only.edits], [
            "stim a 0", "stim b 0", "stim a 10", "stim b 10", "stim a 20", "stim b 20",
        ])  # fmt: skip
        self.assertLessEqual({it[-1] for it in only.edits}, {"0", "1"})
        self.assertEqual(only.undo, tuple(it.rsplit(" ", 1)[0].replace("stim", "unstim") for it in only.edits))


class Runs(WithFolder):
    def what_ifs(self) -> List[WhatIf]:
        return [*faults_of(netlist_of(MULTIPLEXER)), *each_delay(GATES, [1, 3, 9]), *spread(GATES, 50, range(9))]

    def test_a_refused_what_if_leaves_the_others_as_they_are(self) -> None:
        slow = WhatIf("slow", "", ("delay inv 9 9",), ("delay inv 4 4",))
        wrong = WhatIf("wrong", "", ("delay inv 1 1", "drop inw"), ())
        verdicts = run_all(bench(), [slow, wrong, slow], Differs())
        self.assertEqual(verdicts[0], Verdict("differs", 27, "y", "0, not 1"))
        self.assertEqual(verdicts[2], verdicts[0])
        self.assertEqual(verdicts[1].status, "refused")
        self.assertIn("UnknownGate: drop inw (edit 2 of the batch): `inw`: no gate has this name", verdicts[1].note)
        # What is said of it does not hang on what was tried before.
        self.assertEqual(run_all(bench(), [wrong, wrong], Differs()), [verdicts[1]] * 2)

    def test_a_what_if_is_one_block(self) -> None:
        runner = Runner(bench(), Differs())
        self.addCleanup(runner.session.kill)
        with mock.patch.object(runner.session, "ask", wraps=runner.session.ask) as ask:
            verdicts = [runner.verdict(it) for it in each_delay(GATES[:1], [9, 4, 9])]
        self.assertEqual((ask.call_count, verdicts[0] == verdicts[2]), (3, True))

    def test_what_is_longer_than_a_batch(self) -> None:
        points = tuple(f"stim b {time} {time % 2}" for time in range(1, 5001))
        self.assertEqual([len(it) for it in batches(points)], [MAX_BATCH, 5000 - MAX_BATCH])
        many = WhatIf("many", "", points, tuple(f"unstim b {it}" for it in range(1, 5001)))
        same = WhatIf("same", "", (), ())
        # s is 1 up to 20, so b shows from then on alone: y would rise at 27.
        verdicts = run_all(bench(), [many, same], Differs())
        self.assertEqual((verdicts[0].status, verdicts[1]), ("differs", Verdict("same")))

    def test_the_same_by_threads_and_processes_and_one_after_another(self) -> None:
        what_ifs = self.what_ifs()
        here = run_all(bench(), what_ifs, Detects((59,)))
        for executor in (concurrent.futures.ThreadPoolExecutor(3), concurrent.futures.ProcessPoolExecutor(2)):
            with executor:
                self.assertEqual(run_all(bench(), what_ifs, Detects((59,)), executor), here)

    def test_pieces_of_a_thread_are_run_in_one_session(self) -> None:
        program = self.write("program", f"#!/bin/sh\necho >> '{self.folder}/starts'\nexec '{program_path()}' \"$@\"\n")
        os.chmod(program, 0o755)
        what_ifs = list(each_delay(GATES, range(1, 40)))
        counted = bench()._replace(program=program)
        with concurrent.futures.ThreadPoolExecutor(1) as executor:
            self.assertEqual(run_all(counted, what_ifs, Differs(), executor), run_all(bench(), what_ifs, Differs()))
            self.assertEqual(self.read("starts"), "\n")
            # Another bench has a session of its own.
            other = counted._replace(steps=counted.steps[:-1])
            self.assertEqual(run_all(other, what_ifs, Differs(), executor), run_all(bench()._replace(steps=other.steps), what_ifs, Differs()))
            self.assertEqual(self.read("starts"), "\n\n")

    def test_a_piece_is_small_beside_the_whole(self) -> None:
        sizes: List[int] = []

        class Counted(concurrent.futures.ThreadPoolExecutor):
            def submit(self, task, *words):  # type: ignore
                sizes.append(len(words[2]))
                return super().submit(task, *words)

        what_ifs = list(each_delay(GATES, range(1, 41)))
        with Counted(1) as executor:
            run_all(bench(), what_ifs, Differs(), executor)
        self.assertEqual(sum(sizes), len(what_ifs))
        self.assertLessEqual(32 * max(sizes), len(what_ifs))

    def test_a_session_is_not_that_of_the_process_it_was_forked_from(self) -> None:
        what_ifs = self.what_ifs()
        here = run_piece(bench(), Differs(), what_ifs)
        with concurrent.futures.ProcessPoolExecutor(2, multiprocessing.get_context("fork")) as executor:
            self.assertEqual(run_all(bench(), what_ifs, Differs(), executor), here)
        self.assertEqual(run_piece(bench(), Differs(), what_ifs), here)

    def test_what_is_done_is_not_run_again(self) -> None:
        what_ifs = self.what_ifs()
        done = range(0, len(what_ifs), 2)
        self.assertEqual([place for place, _ in run(bench(), what_ifs, Differs(), None, done)], list(range(1, len(what_ifs), 2)))

    def test_a_failure_comes_through(self) -> None:
        with concurrent.futures.ProcessPoolExecutor(2) as executor:
            with self.assertRaisesRegex(Exception, "UnknownNet"):
                run_all(bench()._replace(nets=("nothing",)), self.what_ifs(), Differs(), executor)

    def test_the_same_by_dask(self) -> None:
        python = first_python_with("distributed")
        if python is None:
            self.skipTest("no Python here has distributed (Debian: python3-distributed)")
        script = self.write("campaign.py", DASK)
        environment = {**os.environ, "PYTHONPATH": os.path.join(ROOT, "python"), "TMPDIR": self.folder}
        ran = subprocess.run([python, script], env=environment, cwd=self.folder, capture_output=True, text=True, timeout=300)
        here = run_all(bench(), list(faults_of(netlist_of(MULTIPLEXER))), Detects((59,)))
        self.assertEqual(ran.stdout.splitlines()[-2:], ["2", repr([tuple(it) for it in here])], ran.stderr)


# A scheduler and two workers, each a process of its own, on the loopback address.
DASK = f"""
from distributed import Client, LocalCluster
from gatebench import netlist_of
from gatebench.campaigns import Detects, bench_of, faults_of, run_all
TEXT, STIMULUS = {MULTIPLEXER!r}, {STIMULUS!r}
if __name__ == "__main__":
    with LocalCluster(n_workers=2, threads_per_worker=1, host="127.0.0.1", dashboard_address=None) as cluster:
        with Client(cluster) as client, client.get_executor() as executor:
            bench = bench_of(TEXT, STIMULUS, ["y"], horizon=60)
            verdicts = run_all(bench, list(faults_of(netlist_of(TEXT))), Detects((59,)), executor)
            print(len(client.scheduler_info()["workers"]))
            print([tuple(it) for it in verdicts])
"""

if __name__ == "__main__":
    unittest.main()
