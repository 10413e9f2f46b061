"""The sessions and the lines for a shell that README and the pages of the guide show, and the faults of their tables: each does
what the document says."""
import os
import re
import shutil
import subprocess
import unittest
from typing import List, Tuple

from gatebench import DesignRefused, Session, causes
from gatebench.program import TOOL, tool_path

from .support import EXAMPLES, INVERTER, ROOT, WithFolder
from .test_documents import blocks, text_of

GUIDE = "docs/GUIDE.md"
COMMANDS = "docs/commands.md"
FAULTS = "docs/does-not-load.md"
REFERENCE = "docs/quick-reference.md"
TOOLS = "docs/tool-questions.md"


class WithProgram(WithFolder):
    def setUp(self) -> None:
        super().setUp()
        self.program = os.environ["GATEBENCH"]
        # Lines for a shell name the program and the examples from the root of the repository.
        os.mkdir(os.path.join(self.folder, "bin"))
        os.symlink(self.program, os.path.join(self.folder, "bin", "gatebench"))
        os.mkdir(os.path.join(self.folder, "docs"))
        os.symlink(EXAMPLES, os.path.join(self.folder, "docs", "examples"))
        os.symlink(os.path.join(ROOT, "python"), os.path.join(self.folder, "python"))

    def replies(self, design: str, horizon: int, commands: str) -> str:
        """What the program prints for commands over a design."""
        words = [self.program, self.write("design.v", design), "--horizon", str(horizon)]
        ran = subprocess.run(words, input=commands, capture_output=True, encoding="utf-8", timeout=60)
        self.assertEqual((ran.returncode, ran.stderr), (0, ""))
        return ran.stdout

    def shell(self, lines: str) -> str:
        """What lines for a shell print."""
        ran = subprocess.run(["bash", "-c", lines], cwd=self.folder, capture_output=True, encoding="utf-8", timeout=60)
        self.assertEqual(ran.stderr, "")
        return ran.stdout

    def after(self, name: str, beginning: str) -> Tuple[str, List[str]]:
        """The one block of a document that begins so, and the blocks behind it."""
        found = blocks(name)
        [at] = [place for place, block in enumerate(found) if block.startswith(beginning)]
        return found[at], found[at + 1 :]


class Sessions(WithProgram):
    def test_the_example_of_the_readme(self) -> None:
        [table] = [it for it in blocks("README.md") if it.startswith("command ")]
        rows = [(line[:20].strip(), line[20:]) for line in table.splitlines()[1:]]
        lines, _ = self.after("README.md", "printf ")
        self.assertEqual(self.shell(lines).splitlines(), [reply for _, reply in rows])
        for command, _ in rows:
            self.assertIn(command, lines)

    def test_the_first_run_of_the_guide(self) -> None:
        design, behind = self.after(GUIDE, "module m(")
        self.assertEqual(design, INVERTER)
        started, commands, replies = behind[:3]
        self.assertEqual(started, "bin/gatebench m.v --horizon 20\n")
        self.assertTrue(self.replies(design, 20, commands).endswith("\n" + replies))
        draw, drawn = behind[3:5]
        self.write("m.v", design)
        self.write("commands", commands)
        self.assertEqual(self.shell(draw), drawn)

    def test_a_batch_and_a_held_version(self) -> None:
        batch, behind = self.after(COMMANDS, "stim a 0 0\nbegin\n")
        replies, held, more = behind[:3]
        self.assertEqual(self.replies(INVERTER, 20, batch), replies)
        self.assertEqual(self.replies(INVERTER, 20, batch + held), replies + more)

    def test_questions(self) -> None:
        design, behind = self.after(COMMANDS, "module latch(")
        rows = re.findall(r"^\| `((?:value|seek|prev|next|wave) [^`]+)` \| [^|]+ \| (`[^|]+`) \|$", text_of(COMMANDS), re.M)
        self.assertEqual(len(rows), 7)
        for question, answer in rows:
            lines = re.findall("`([^`]+)`", answer)
            expected = "".join(f"{it}\n" for it in [*lines, "ok 5"])
            self.assertEqual(self.replies(design, 40, behind[0] + question + "\n"), "ok 1\nok 2\nok 3\nok 4\nok 5\n" + expected)

    def test_the_lines_that_show_refusals(self) -> None:
        lines, behind = self.after(COMMANDS, "bin/gatebench m.v < commands")
        self.write("m.v", INVERTER)
        self.write("commands", "wibble\nstim q 0 1\nwave zz\n")
        self.assertEqual(self.shell(lines), behind[0])

    def tool_replies(self, commands: str) -> str:
        """What gatetool prints for commands over the design of its page."""
        design, _ = self.after(TOOLS, "module m(")
        words = [TOOL, self.write("m.v", design), "--horizon", "40"]
        ran = subprocess.run(words, executable=tool_path(self.program), input=commands, capture_output=True, encoding="utf-8", timeout=60)
        self.assertEqual(ran.returncode, 0)
        return ran.stdout

    def test_questions_of_tools(self) -> None:
        _, (commands, replies, *_) = self.after(TOOLS, "module m(")
        self.assertEqual(self.tool_replies(commands), replies)

    def test_what_made_a_change_and_what_differs(self) -> None:
        commands, (replies, *_) = self.after(TOOLS, "stim a 0 1\nstim b 0 1\nhold before\n")
        self.assertEqual(self.tool_replies(commands), replies)

    def test_the_words_at_fault(self) -> None:
        rows = re.findall(r"^\| `(fault .*?)` \| `(no .*?)` \|$", text_of(TOOLS), re.M)
        self.assertGreater(len(rows), 4)
        self.assertEqual(self.tool_replies("".join(f"{line}\n" for line, _ in rows)), "".join(f"{reply}\n" for _, reply in rows))

    def test_the_second_line_of_a_refused_text(self) -> None:
        shown, _ = self.after(FAULTS, "$ bin/gatetool m.v\n")
        path = self.write("m.v", "module m;\n  assign y = b;\nendmodule\n")
        ran = subprocess.run([TOOL, path], executable=tool_path(self.program), input="", capture_output=True, encoding="utf-8", timeout=60)
        self.assertEqual((ran.returncode, ran.stderr), (1, shown.partition("\n")[2]))

    def test_a_dump(self) -> None:
        lines, _ = self.after("docs/dumps.md", "bin/gatebench docs/examples/dump/design.v")
        self.assertEqual(self.shell(lines), "")
        with open(os.path.join(EXAMPLES, "dump", "expected"), encoding="utf-8") as file:
            dump = [line for line in file if not line.startswith("ok ")]
        self.assertEqual(self.read("mux.vcd"), "".join(dump))

    def test_the_quick_reference(self) -> None:
        rows = re.findall(r"^\| (`[^|]+`) \| ([^|]+) \| ([^|]+) \|$", text_of(REFERENCE), re.M)
        self.assertEqual(len(rows), 20)
        commands = "".join(f"{it}\n" for line, _, _ in rows for it in re.findall("`([^`]+)`", line))
        printed = self.replies(text_of("docs/examples/dump/design.v"), 40, commands).splitlines()
        for line, _, reply in rows:
            expected = re.findall("`([^`]+)`", reply)
            if " to " in reply:
                first, last = (int(it.split()[1]) for it in expected)
                expected = [f"ok {it}" for it in range(first, last + 1)]
            if reply.startswith("a dump"):
                printed = printed[printed.index(expected[0]) :]
            self.assertEqual(printed[: len(expected)], expected, line)
            printed = printed[len(expected) :]
        self.assertEqual(printed, [])


class Faults(WithProgram):
    """The tables of texts that are refused."""

    def fault(self, text: str) -> str:
        ran = subprocess.run([self.program, self.write("design.v", text)], input="", capture_output=True, encoding="utf-8", timeout=60)
        self.assertEqual(ran.returncode, 1, text)
        return ran.stderr

    def test_all_faults(self) -> None:
        rows = re.findall(r"^\| `(\d+ \w+)` \| `(module .*)` \|[^|]*\|$", text_of(FAULTS), re.M)
        self.assertGreater(len(rows), 15)
        for fault, text in rows:
            self.assertEqual(self.fault(text), f"line 1: {fault}\n", text)

    def test_what_stands_in_a_text(self) -> None:
        page = text_of(FAULTS)
        [ports] = re.findall("^Within `(module .*;)`:$", page, re.M)
        rows = re.findall(r"^\| (?:`([^`].*?)`|`` (.*?) ``) \| `(\d+ \w+)` \|", page, re.M)
        self.assertGreater(len(rows), 25)
        for short, long, fault in rows:
            text = short or long
            whole = re.match("module |entity |`", text)
            self.assertRegex(self.fault(text if whole else f"{ports} {text} endmodule"), f"^line 1: {fault}$", text)

    def test_what_helps_against_a_word_is_said_where_it_is_at_fault(self) -> None:
        [ports] = re.findall("^Within `(module .*;)`:$", text_of(FAULTS), re.M)
        rows = [it for it in causes.CURES if it.words]
        self.assertGreater(len(rows), 8)
        for row in rows:
            text = row.text.strip("` ") if not row.text.startswith("``") else row.text[3:-3]
            whole = re.match("module |`", text)
            with self.assertRaises(DesignRefused) as refused:
                Session(text=text if whole else f"{ports} {text} endmodule")
            self.assertIn(refused.exception.word, row.words)
            self.assertIn(causes.alone(row.cure), str(refused.exception))

    def test_what_the_command_line_says(self) -> None:
        self.write("m.v", INVERTER)
        said = {
            "read failed": "nosuch.v",
            "unexpected argument '--top' found": "m.v --top m",
            "unexpected argument 'commands' found": "m.v commands",
            "invalid value '10ns' for '--horizon <H>'": "m.v --horizon 10ns",
        }
        for error, words in said.items():
            self.assertIn(f"| `{error}` |", text_of(FAULTS))
            ran = subprocess.run([self.program, *words.split()], cwd=self.folder, input="", capture_output=True, text=True, timeout=60)
            self.assertIn(error, ran.stderr)

    def test_what_a_refusal_says_in_python(self) -> None:
        [text] = [it for it in blocks(FAULTS) if it.startswith("m.v:2:3: ")]
        with self.assertRaises(DesignRefused) as refused:
            Session(self.write("m.v", "module m;\n  assign y = b;\nendmodule\n"))
        self.assertEqual(str(refused.exception).replace(self.folder + os.sep, "") + "\n", text)

    def test_what_loads_and_is_not_meant(self) -> None:
        commands = "wave dtaa\nwave a\n"
        self.assertEqual(self.replies("module m(input a, output y); buf #1 (y, dtaa); endmodule", 40, commands), "0 z\nok 0\n0 x\nok 0\n")


@unittest.skipUnless(shutil.which("iverilog"), "iverilog is not installed")
class BesideIcarus(WithProgram):
    PAGE = "docs/beside-icarus.md"

    def test_the_same_file_in_both(self) -> None:
        bench, behind = self.after(self.PAGE, "module bench;")
        self.write("bench.v", bench)
        self.assertEqual(self.shell(behind[0]), behind[1])

    def waves(self, design: str, output: str, points: List[Tuple[int, str, str]]) -> Tuple[List[str], List[str]]:
        """The wave of an output here and in Icarus, up to 40."""
        name, inputs = re.findall(r"module (\w+)\(input ([^()]*), output", design)[0]
        commands = "".join(f"stim {net} {time} {value}\n" for time, net, value in points) + f"wave {output}\n"
        lines = "".join(f"    {net} <= #{time} 1'b{value};\n" for time, net, value in points)
        ports = ", ".join(f".{it}({it})" for it in inputs.split(", "))
        bench = f"module bench;\n  reg {inputs};\n  {name} top({ports});\n  initial begin\n"
        bench += f'    $monitor("%0d %b", $time, top.{output});\n{lines}    #41 $finish(0);\n  end\nendmodule\n'
        self.write("both.v", design + bench)
        here = [it for it in self.replies(design, 40, commands).splitlines() if not it.startswith("ok ")]
        return here, self.shell("iverilog -o run.vvp both.v && vvp -n run.vvp").splitlines()

    def test_bits_of_vectors(self) -> None:
        design, _ = self.after(self.PAGE, "module late(")
        points = [(0, "a", "0"), (0, "b", "0"), (10, "a", "1"), (10, "b", "1")]
        self.assertEqual(self.waves(design, "y", points), (["0 x", "7 0", "15 1"], ["0 x", "7 0", "17 1"]))
        scalar = design.replace("wire [1:0] n", "wire n").replace("n[0]", "n")
        self.assertEqual(self.waves(scalar, "y", points), (["0 x", "7 0", "15 1"], ["0 x", "7 0", "15 1"]))

    def test_unknown_enables(self) -> None:
        design, _ = self.after(self.PAGE, "module enable(")
        points = [(0, "d", "1"), (0, "e", "0"), (10, "e", "x")]
        self.assertEqual(self.waves(design, "y", points), (["0 x", "1 1", "11 x"], ["0 x", "1 1"]))
        alone = re.sub(r"  buf .*\n", "", design)
        self.assertEqual(self.waves(alone, "y", points), (["0 x", "1 z", "11 x"], ["0 x", "1 z", "11 x"]))
