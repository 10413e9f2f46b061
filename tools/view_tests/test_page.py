"""The page in a browser: what is done with the pointer and the keyboard, and what is seen of it.

The design is a chain: c follows a after 2 at a rise and 3 at a fall, and y is the inverse of c after 1."""
import os
import signal
import tempfile
import unittest

from browser import Page, start_browser
from selenium.common.exceptions import WebDriverException

CHAIN = """module chain(input a, b, input [3:0] d, output y, output [3:0] e);
  buf #(2,3) follow(c, a);
  not #1 invert(y, c);
  and #2 g3(e[3], d[3], b), g2(e[2], d[2], b), g1(e[1], d[1], b), g0(e[0], d[0], b);
endmodule
"""
COMMANDS = "stim a 0 0\nstim a 20 1\nstim b 0 1\n" + "".join(f"stim d[{bit}] 0 0\nstim d[{bit}] 30 1\n" for bit in range(4))
# The program is started by a shell that says its number; the first one is that of the session.
SAYING = "#!/bin/sh\necho $$ >> '{folder}/number'\nexec '{program}' \"$@\"\n"


class Pages(unittest.TestCase):
    @classmethod
    def setUpClass(cls):
        try:
            cls.browser = start_browser(os.environ["CHROMEDRIVER"])
        except WebDriverException as error:
            # There may be a driver alone, or a Chromium that can't run here: the page has no part in that.
            raise unittest.SkipTest(f"Chromium can't be started: {error.msg}") from None
        cls.addClassCleanup(cls.browser.quit)

    def setUp(self):
        room = tempfile.TemporaryDirectory()
        self.addCleanup(room.cleanup)
        self.folder = room.name
        self.write("chain.v", CHAIN)
        self.write("commands", COMMANDS)
        self.write("program", SAYING.format(folder=self.folder, program=os.environ["GATEBENCH"]))
        os.chmod(self.path("program"), 0o755)
        words = [self.path("chain.v"), self.path("commands"), "--horizon", "60", "--program", self.path("program")]
        self.page = Page(self.browser, words)
        self.addCleanup(self.page.close)

    def path(self, name):
        return os.path.join(self.folder, name)

    def write(self, name, text):
        with open(self.path(name), "w", encoding="utf-8") as file:
            file.write(text)

    def wave_of(self, row):
        self.page.settle()
        return self.page.wave(row)

    def see_wave(self, row, spans):
        """Waits until the page knows this wave of a row."""
        self.page.wait("JSON.stringify(view.known(view.model.rows.find(it => it.name === arguments[0]))?.now) === JSON.stringify(arguments[1])", row, spans)

    def test_a_design_is_shown(self):
        self.assertEqual(self.page.text("design"), "chain.v")
        self.assertEqual(self.page.text("names").split(), ["a", "b", "d", "y", "e", "c"])
        self.assertEqual(self.wave_of("y"), [[0, "x"], [4, "1"], [23, "0"]])
        self.assertEqual(self.wave_of("e"), [[0, "x"], [2, "0"], [32, "f"]])
        # A pixel of the wave of a, in green: the canvas has drawn it.
        green = "(() => { const at = document.getElementById('waves').getContext('2d').getImageData(5, 45 + 9, 1, 1).data; return at[1] > at[0]; })()"
        self.page.wait(green)
        self.assertEqual(self.page.problems(), [])

    def test_an_edge_is_dragged_and_the_difference_is_shown(self):
        self.page.drag("a", 20, 25)
        self.see_wave("y", [[0, "x"], [4, "1"], [28, "0"]])
        self.assertEqual(self.page.wave("y", "other"), [[0, "x"], [4, "1"], [23, "0"]])
        self.assertEqual(self.page.wave("y", "shades"), [[23, 28]])
        self.page.see_changes("3 nets")
        changed = [it.split() for it in self.page.text("changed").splitlines()]
        self.assertEqual([it[:2] for it in changed], [["20", "a"], ["22", "c"], ["23", "y"]])
        self.assertEqual(self.page.text("log"), "unstim a 20; stim a 25 1")

    def test_undo_and_redo_by_keys(self):
        self.page.drag("a", 20, 25)
        self.page.keys("u")
        self.see_wave("y", [[0, "x"], [4, "1"], [23, "0"]])
        self.page.keys("r")
        self.see_wave("y", [[0, "x"], [4, "1"], [28, "0"]])

    def test_a_vector_is_dragged_with_all_its_bits(self):
        self.page.drag("d", 30, 40)
        self.see_wave("e", [[0, "x"], [2, "0"], [42, "f"]])
        self.page.keys("u")
        self.see_wave("e", [[0, "x"], [2, "0"], [32, "f"]])

    def test_a_delay_is_changed_in_its_field(self):
        self.page.click("c", 10)
        self.page.wait("document.querySelector('[data-delay=\"follow rise\"]')?.value === '2'")
        field = self.browser.find_element("css selector", "[data-delay='follow rise']")
        field.clear()
        field.send_keys("7")
        self.see_wave("c", [[0, "x"], [3, "0"], [27, "1"]])
        field.send_keys("\ue015" * 2)
        self.see_wave("c", [[0, "x"], [3, "0"], [25, "1"]])

    def test_a_delay_is_dragged(self):
        self.page.click("c", 10)
        self.page.wait("document.querySelector('[data-delay=\"follow rise\"]')?.value === '2'")
        # Six pixels are a time unit.
        field = self.browser.find_element("css selector", "[data-delay='follow rise']")
        self.page.pull(field, 30)
        self.see_wave("c", [[0, "x"], [3, "0"], [27, "1"]])
        self.assertEqual(self.page.wave("c", "shades"), [[22, 27]])
        self.page.see_changes("2 nets")
        self.assertEqual(self.page.text("log"), "delay follow 7 3")

    def test_a_delay_and_a_rule_by_keys(self):
        self.page.ask("void (view.model.chosen = view.model.rows.findIndex(it => it.name === 'c'), view.paint())")
        self.page.keys("n")
        self.page.wait("document.querySelector('[data-delay=\"follow rise\"]')")
        self.page.keys("d\ue013")
        self.see_wave("c", [[0, "x"], [3, "0"], [23, "1"]])
        self.page.keys("\ue00c")
        self.page.keys("g\ue007")
        self.page.wait("document.getElementById('rules').innerText.includes('no pulse under 5')")

    def test_a_refused_edit_says_why_and_changes_nothing(self):
        before = self.wave_of("y")
        self.page.command("delay invert 0 1")
        self.page.wait("!document.getElementById('banner').hidden")
        self.assertIn("delay invert 0 1 (5 ZeroDelay) `0`: a delay is 0", self.page.text("banner"))
        self.assertEqual((self.wave_of("y"), self.page.text("log")), (before, ""))

    def lines(self):
        """The lines of the lists of what made an edge and what it led to."""
        return [it.text for it in self.browser.find_elements("css selector", "#net tr")]

    def test_what_made_an_edge_and_what_it_led_to(self):
        self.page.click("y", 23)
        self.page.wait("document.querySelectorAll('#net tr.followed').length === 2")
        self.assertEqual(self.lines(), ["22 c to 1, through invert", "20 a to 1, through follow"])
        self.assertIn("a has a stimulus point at 20: here it begins.", self.page.text("net"))
        self.assertIn("It led to nothing.", self.page.text("net"))
        self.assertEqual([(it["net"], it["time"]) for it in self.page.ask("view.model.way")], [("y", 23), ("c", 22), ("a", 20)])
        for row, moment in (("y", 23), ("c", 22), ("a", 20)):
            self.page.wait(self.blue(row, moment))
        # Back to the stimulus, and forward again.
        self.browser.find_elements("css selector", "#net tr")[1].click()
        self.page.wait("document.getElementById('net-name').textContent === 'a at 20'")
        self.assertEqual((self.lines(), self.page.ask("view.model.cursors.a")), (["22 c to 1, through follow"], 20))
        self.browser.find_element("css selector", "#net tr").click()
        self.page.wait("document.getElementById('net-name').textContent === 'c at 22'")
        self.assertEqual(self.lines(), ["20 a to 1, through follow", "23 y to 0, through invert"])
        # Another row has no way.
        self.page.click("b", 10)
        self.page.wait("view.model.way.length === 0")

    def test_what_made_an_edge_of_a_vector_by_a_key(self):
        self.choose_row("e")
        self.page.keys("nnw")
        self.page.wait("document.getElementById('net-name').textContent === 'e[3] at 32'")
        self.assertEqual(self.lines(), ["30 d[3] to 1, through g3"])

    def test_keys_move_the_cursor_and_the_point(self):
        self.page.keys("n")
        self.page.wait("view.model.cursors.a === 20")
        self.page.keys("]")
        self.see_wave("y", [[0, "x"], [4, "1"], [24, "0"]])
        self.page.keys("[[")
        self.see_wave("y", [[0, "x"], [4, "1"], [22, "0"]])

    def test_the_two_versions_are_switched(self):
        self.page.drag("a", 20, 40)
        # At 30 the wave of a is low now and was high before; what stands in front is green.
        self.page.ask("void (view.model.cursors.a = null)")
        self.page.keys("e")
        high = "(() => { const pen = document.getElementById('waves').getContext('2d'); const at = pen.getImageData(Math.round(view.place(30)), 30 + 6, 1, 1).data; return at[1] - at[0] > 60; })()"
        self.page.wait(high)
        self.page.keys("e")
        self.page.wait("!" + high)

    def test_a_held_version_and_a_rule(self):
        self.page.command("hold early")
        self.page.wait("document.getElementById('versions').innerText.includes('early')")
        self.page.command("stim a 24 0")
        self.see_wave("y", [[0, "x"], [4, "1"], [23, "0"], [28, "1"]])
        self.page.ask("void (view.model.chosen = 3)")
        self.page.keys("\ue00c")
        self.browser.find_element("css selector", "#rules button").click()
        self.page.wait("document.getElementById('rules').innerText.includes('no pulse under 5')")
        field = self.browser.find_element("id", "rule-words")
        field.clear()
        field.send_keys("6\n")
        self.page.wait("document.getElementById('rule-count').textContent === '1 broken'")
        self.page.wait(self.red("y", 23))

    def red(self, row, moment):
        """Whether the mark of a broken rule stands below a row at a moment."""
        x, y = self.page.ask("[view.place(arguments[1]), 30 + 30 * view.model.rows.findIndex(it => it.name === arguments[0]) + 27]", row, moment)
        pixel = f"document.getElementById('waves').getContext('2d').getImageData({round(x)}, {y}, 1, 1).data"
        return f"(([red, green]) => red > 180 && green < 90)({pixel})"

    def blue(self, row, moment):
        """Whether the point of a way stands on an edge of a row; beside the line of a cursor."""
        x, y = self.page.ask("[view.place(arguments[1]), 30 + 30 * view.model.rows.findIndex(it => it.name === arguments[0]) + 15]", row, moment)
        pixel = f"document.getElementById('waves').getContext('2d').getImageData({round(x) + 2}, {y}, 1, 1).data"
        return f"(([red, green, blue]) => blue > 180 && red < 90)({pixel})"

    def choose_row(self, name):
        self.page.ask("void (view.model.chosen = view.model.rows.findIndex(it => it.name === arguments[0]), view.paint())", name)

    def test_rules_of_each_kind_by_keys(self):
        # c follows a at 22; y falls at 23; e is 0 from 2 on and f from 32 on; d rises at 30.
        for row, kinds, typed, said, marks in (
            ("c", 1, "10 22", "stays from 10 to 22", [("c", 22)]),
            ("c", 2, "a 1 3", "stays from 1 before to 3 behind each rise of a", [("c", 22)]),
            ("c", 3, "y", "one of c, y is 1", [("c", 22), ("y", 22)]),
            ("e", 4, "d 25 31", "equals", [("e", 31), ("d", 31)]),
        ):
            with self.subTest(said):
                self.choose_row(row)
                self.page.keys("k" * kinds + "g")
                self.page.keys(typed + "\ue007")
                self.page.wait("document.getElementById('rules').innerText.includes(arguments[0])", said)
                for net, moment in marks:
                    self.page.wait(self.red(net, moment))
                while self.page.ask("view.model.state.rules.length"):
                    left = self.page.ask("view.model.state.rules.length")
                    self.browser.find_element("css selector", "#rules tr.go:not(.bad)").click()
                    self.page.wait("view.model.state.rules.length === arguments[0]", left - 1)
                # The list goes round.
                self.page.keys("\ue00c" + "k" * (5 - kinds))

    def test_a_rule_that_says_nothing_is_refused(self):
        self.choose_row("c")
        self.page.keys("kg")
        self.page.keys("10\ue007")
        self.page.wait("document.getElementById('banner').innerText.includes('this rule takes two moments')")
        self.assertEqual(self.page.ask("view.model.state.rules.length"), 0)

    def test_another_text_is_read_at_once(self):
        self.write("chain.v", CHAIN.replace("not #1", "not #5"))
        self.see_wave("y", [[0, "x"], [8, "1"], [27, "0"]])
        self.page.wait("document.getElementById('banner').innerText.includes('file has changed')")
        self.assertEqual(self.page.wave("y", "other"), [[0, "x"], [4, "1"], [23, "0"]])

    def test_a_text_that_is_refused_shows_the_word_at_fault(self):
        self.write("chain.v", CHAIN.replace("  not #1", "  assign y = c;\n  not #1"))
        self.page.wait("document.querySelector('#banner pre')")
        self.assertIn("chain.v:3:3: 3 Unsupported at `assign`", self.page.text("banner"))
        self.assertEqual(self.browser.find_element("css selector", "#banner pre").text, "  assign y = c;\n  ^^^^^^")
        self.assertEqual(self.wave_of("y"), [[0, "x"], [4, "1"], [23, "0"]])

    def test_a_program_that_ended_is_said_and_started_again(self):
        self.page.drag("a", 20, 25)
        with open(self.path("number"), encoding="ascii") as file:
            os.kill(int(file.read().split()[0]), signal.SIGKILL)
        self.page.wait("document.getElementById('banner').innerText.includes('ended with status -9')")
        self.browser.find_element("id", "restart").click()
        self.page.wait("document.getElementById('banner').innerText.includes('started again')")
        self.see_wave("y", [[0, "x"], [4, "1"], [28, "0"]])


if __name__ == "__main__":
    unittest.main()
