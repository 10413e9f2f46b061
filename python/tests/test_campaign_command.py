"""The commands faults and sweep: what they print, their files, and how they go on after an interrupt."""
import json
import os
import signal
import subprocess
import sys
import time
from typing import List

from gatebench.program import program_path

from .support import EXAMPLES, ROOT, WithFolder

# Two buffers in instances, and a gate at the top.
TEXT = """
module top(input a, b, output y);
  pass u(a, p), w(b, q);
  or #1 g(y, p, q);
endmodule
module pass(input i, output o);
  buf #2 k(o, i);
endmodule
"""
MULT4 = os.path.join(EXAMPLES, "faults", "mult4.v")


class Commands(WithFolder):
    def start(self, *words: str) -> "subprocess.Popen[str]":
        environment = {**os.environ, "PYTHONPATH": os.path.join(ROOT, "python")}
        return subprocess.Popen(
            [sys.executable, "-m", "gatebench", *words],
            cwd=self.folder,
            env=environment,
            stdout=subprocess.PIPE,
            stderr=subprocess.PIPE,
            text=True,
            start_new_session=True,
        )

    def says(self, *words: str, status: int = 0, errors: str = "") -> str:
        """What is printed; `errors` is what is said beside it."""
        with self.start(*words) as process:
            out, err = process.communicate(timeout=300)
        self.assertEqual((process.returncode, err), (status, errors))
        return out

    def files(self, *names: str) -> List[str]:
        return [self.read(it) for it in names]

    def test_coverage_by_module_and_what_is_not_detected(self) -> None:
        self.write("top.v", TEXT)
        self.write("commands", "stim a 0 1\nstim b 0 0\n")
        # y is 1 by a alone. What is stuck at 0 on the way from a shows; nothing of b does, nor what is stuck at 1.
        words = ["faults", "top.v", "commands", "--horizon", "20", "--strobe", "10"]
        lines = self.says(*words).splitlines()
        self.assertEqual(lines[:5], [
            "module  faults  detected  possible  undetected  refused  coverage",
            "(top)        6         2         0           4        0    33.3 %",
            "u            2         1         0           1        0    50.0 %",
            "w            2         0         0           2        0     0.0 %",
            "all         10         3         0           7        0    30.0 %",
        ])  # fmt: skip
        self.assertEqual(lines[5:], [f"undetected: {it}" for it in (
            "a stuck at 1", "b stuck at 0", "b stuck at 1", "y stuck at 1", "p stuck at 1", "q stuck at 0", "q stuck at 1",
        )])  # fmt: skip
        self.assertEqual(self.says(*words, "--depth", "0").splitlines()[1:3], [
            "(top)       10         3         0           7        0    30.0 %", "undetected: a stuck at 1",
        ])  # fmt: skip
        self.says(*words, "--least", "30")
        self.says(*words, "--least", "30.1", status=1)
        lines = self.says(*words, "--gates", "u.*").splitlines()
        self.assertEqual(lines[1:], [
            "(top)        2         1         0           1        0    50.0 %",
            "u            2         1         0           1        0    50.0 %",
            "all          4         2         0           2        0    50.0 %",
            "undetected: a stuck at 1",
            "undetected: p stuck at 1",
        ])  # fmt: skip

    def test_json_and_csv(self) -> None:
        self.write("m.v", "module m(input a, output y); not #(2,3) g(y, a); endmodule")
        self.write("commands", "stim a 0 0\n")
        self.says("faults", "m.v", "commands", "--horizon", "9", "--csv", "out.csv", "--json", "out.json")
        # y is x, and 1 from 2 on; stuck at 1, a makes it 0 from 3 on, and x at 2. The output stuck at 0 is 0 from 3 on too.
        self.assertEqual(self.read("out.csv"), (
            "name,module,status,time,net,note\n"
            "a stuck at 0,,undetected,,,\n"
            'a stuck at 1,,detected,3,y,"0, not 1"\n'
            'y stuck at 0,,detected,3,y,"0, not 1"\n'
            "y stuck at 1,,undetected,,,\n"
        ))  # fmt: skip
        document = json.loads(self.read("out.json"))
        self.assertEqual((document["campaign"], document["design"], document["count"]), ("faults", "m.v", 4))
        self.assertEqual(document["modules"], [
            {"module": "(top)", "faults": 4, "detected": 2, "possible": 0, "undetected": 2, "refused": 0, "percent": 50.0},
        ])  # fmt: skip
        self.assertEqual(document["results"][1], {
            "name": "a stuck at 1", "module": "", "status": "detected", "time": 3, "net": "y", "note": "0, not 1",
        })  # fmt: skip

    def test_gates_that_commands_made(self) -> None:
        self.write("m.v", "module m; endmodule")
        self.write("commands", "input a\nnet y wire\ngate g buf 1 1 y a\nstim a 0 1\n")
        lines = self.says("faults", "m.v", "commands", "--horizon", "9", "--nets", "y").splitlines()
        self.assertEqual(lines[1].split(), ["(top)", "4", "2", "0", "2", "0", "50.0", "%"])
        self.says(
            "faults", "m.v", "commands", status=1,
            errors="gatebench faults: the design has no outputs: name the nets to compare by --nets\n",
        )  # fmt: skip
        self.write("commands", "drop g\n")
        self.says(
            "faults", "m.v", "commands", status=1,
            errors="gatebench faults: commands:1: expected ok, got no 2 UnknownGate: `g`: no gate has this name\n",
        )  # fmt: skip

    def test_sweeps(self) -> None:
        self.write("m.v", "module m(input a, b, output y); not #4 inv(n, a); and #2 g(y, a, n); endmodule")
        self.write("commands", "stim a 0 0\nstim a 20 1\n")
        words = ["sweep", "m.v", "commands", "--horizon", "40"]
        # a rises at 20 and n falls 4 later, or as the inverter takes: so long y is 1, from 22 on.
        note = "a pulse of 1 that lasts {}, and not 4 or more"
        self.assertEqual(self.says(*words, "--delays", "2:4", "--gates", "inv", "--no-pulse", "4").splitlines(), [
            "what-ifs: 3, broken: 2, kept: 1",
            f"broken: inv takes 2: y at 22 {note.format(2)}",
            f"broken: inv takes 3: y at 22 {note.format(3)}",
        ])  # fmt: skip
        self.assertEqual(self.says(*words, "--scale", "50", "100", "--gates", "inv").splitlines(), [
            "what-ifs: 2, differs: 1, same: 1", "differs: inv at 50 %: y at 24 0, not 1",
        ])  # fmt: skip
        # b is free, and read by no gate.
        self.assertEqual(self.says(*words, "--stimulus", "10", "--seeds", "1:4"), "what-ifs: 4, same: 4\n")

    def test_the_same_bytes_however_many_processes(self) -> None:
        self.write("commands", self.stimulus())
        found = []
        for jobs in ("1", "3"):
            words = ["--result", "r" + jobs, "--csv", "c" + jobs, "--json", "j" + jobs, "-j", jobs]
            text = self.says("faults", MULT4, "commands", "--horizon", "59", "--gates", "g_p*", "g_c*", *words)
            found.append([text, *self.files("r" + jobs, "c" + jobs, "j" + jobs)])
        self.assertEqual(found[0], found[1])

    def stimulus(self) -> str:
        return "".join(f"stim {bus}{bit} 0 1\n" for bus in "ab" for bit in range(4))

    def halting(self) -> str:
        """Gatebench for 1,500 lines, which is some part of the faults of the multiplier in each process: then it answers no more,
        so that a campaign is not over before it is interrupted."""
        return self.stand_in(f"""
            import subprocess
            program = subprocess.Popen([{program_path()!r}, *sys.argv[1:]], stdin=subprocess.PIPE, bufsize=0, close_fds=False)
            for number, line in enumerate(commands):
                if number == 1500:
                    time.sleep(600)
                program.stdin.write(line)
            program.stdin.close()
            sys.exit(program.wait())
        """)  # fmt: skip

    def wait_for_lines(self, process: "subprocess.Popen[str]", count: int) -> None:
        """Waits until the file of a campaign's results has so many lines."""
        while not os.path.exists(self.folder + "/part") or len(self.read("part").splitlines()) < count:
            self.assertIsNone(process.poll(), "the campaign has ended")
            time.sleep(0.01)

    def test_an_interrupt_and_going_on(self) -> None:
        self.write("commands", self.stimulus())
        words = ["faults", MULT4, "commands", "--horizon", "59", "--strobe", "60"]
        whole = self.says(*words, "--result", "whole")
        process = self.start(*words, "--result", "part", "-j", "2", "--program", self.halting())
        self.wait_for_lines(process, 20)
        os.killpg(process.pid, signal.SIGINT)
        _, errors = process.communicate(timeout=60)
        self.assertEqual((process.returncode, errors), (130, "gatebench faults: interrupted\n"))
        count = len(self.read("part").splitlines()) - 1
        self.assertTrue(20 <= count + 1 < 369)
        # It is not begun anew by mistake, and a line that was cut off is run again.
        self.says(
            *words, "--result", "part", status=1,
            errors=f"gatebench faults: part has {count} of 368 results: --resume goes on with it, or take it away\n",
        )  # fmt: skip
        self.write("part", self.read("part")[:-5])
        self.assertEqual(self.says(*words, "--result", "part", "--resume", "-j", "2"), whole)
        self.assertEqual(self.read("part"), self.read("whole"))
        # All is done: nothing is run again.
        self.assertEqual(self.says(*words, "--result", "part", "--resume"), whole)

    def test_an_interrupt_of_one_process(self) -> None:
        self.write("commands", self.stimulus())
        process = self.start("faults", MULT4, "commands", "--horizon", "59", "--result", "part", "--program", self.halting())
        # Each result is there as soon as it comes.
        self.wait_for_lines(process, 3)
        process.send_signal(signal.SIGINT)
        _, errors = process.communicate(timeout=60)
        self.assertEqual((process.returncode, errors), (130, "gatebench faults: interrupted\n"))
        self.assertTrue(3 <= len(self.read("part").splitlines()) < 369)

    def test_results_of_another_campaign(self) -> None:
        self.write("m.v", "module m(input a, output y); not #(2,3) g(y, a); endmodule")
        self.says("faults", "m.v", "--result", "r")
        self.says(
            "faults", "m.v", "--horizon", "7", "--result", "r", "--resume", status=1,
            errors="gatebench faults: r is of another campaign: take it away, or name another file\n",
        )  # fmt: skip
        for text in ("what\n", "[]\n", '{"count": 4}\n{"place": 0}\n'):
            self.write("r", text)
            self.says(
                "faults", "m.v", "--result", "r", status=1,
                errors="gatebench faults: r has no results: take it away, or name another file\n",
            )  # fmt: skip
        errors = "gatebench faults: --resume goes on with the file of --result: name it\n"
        self.says("faults", "m.v", "--resume", status=1, errors=errors)
