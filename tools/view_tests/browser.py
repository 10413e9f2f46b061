"""A page in a headless Chromium, and the server behind it."""
import os
import subprocess
import sys
import time

from selenium import webdriver
from selenium.webdriver.chrome.service import Service
from selenium.webdriver.common.action_chains import ActionChains

# For how long something may take to show, in seconds.
PATIENCE = 60
SIZE = (1280, 720)
# Asks for the list of what changed where there is a button for it, once; and whether it says what it should of its length.
LISTED = """(() => {
  const button = document.querySelector('#changed button:enabled');
  button?.click();
  if (button) button.disabled = true;
  return document.getElementById('changed-count').textContent === arguments[0];
})()"""


def start_browser(driver):
    options = webdriver.ChromeOptions()
    for word in ("--headless=new", "--no-sandbox", "--disable-gpu", "--disable-dev-shm-usage", "--force-color-profile=srgb",
                 f"--window-size={SIZE[0]},{SIZE[1]}"):
        options.add_argument(word)
    options.set_capability("goog:loggingPrefs", {"browser": "ALL"})
    return webdriver.Chrome(service=Service(driver), options=options)


class Page:
    """A design on a page. `words` are those behind `gatebench view`."""

    def __init__(self, browser, words, environment=None):
        self.browser = browser
        self.server = subprocess.Popen([sys.executable, "-m", "gatebench", "view", *words], stdout=subprocess.PIPE, text=True,
                                       env={**os.environ, **(environment or {})})
        self.address = self.server.stdout.readline().strip()
        browser.get(self.address)
        self.settle()

    def close(self):
        self.server.terminate()
        self.server.wait()
        self.server.stdout.close()

    def ask(self, script, *given):
        return self.browser.execute_script(f"return {script}", *given)

    def wait(self, script, *given):
        """Waits until this is true, and gives it."""
        end = time.monotonic() + PATIENCE
        while time.monotonic() < end:
            found = self.ask(script, *given)
            if found:
                return found
            time.sleep(0.02)
        raise AssertionError(f"not so within {PATIENCE} seconds: {script}")

    def settle(self):
        """Waits until the waves are those of the present version."""
        self.wait("window.view && view.model.rows.length && view.isFresh()")

    def see_changes(self, count):
        """Waits until the list of what changed says this of its length. Where a list was slow the page has a button in its place."""
        self.wait(LISTED, count)

    def text(self, name):
        """What an element shows, by its id."""
        return self.ask("document.getElementById(arguments[0]).innerText", name).strip()

    def wave(self, row, which="now"):
        """What the page knows of a row in its window."""
        return self.ask("view.known(view.model.rows.find(it => it.name === arguments[0]))?.[arguments[1]]", row, which)

    def at(self, row, moment):
        """Where a moment of a row stands, from the canvas's middle."""
        x, y, width, height = self.ask(
            "[view.place(arguments[1]), 45 + 30 * view.model.rows.findIndex(it => it.name === arguments[0])"
            " - document.getElementById('stage').scrollTop, document.getElementById('waves').clientWidth,"
            " document.getElementById('waves').clientHeight]", row, moment)
        return round(x - width // 2), round(y - height // 2)

    def drag(self, row, start, end, steps=4, drop=True):
        """Drags the edge of a row from one moment to another."""
        canvas = self.browser.find_element("id", "waves")
        actions = ActionChains(self.browser, duration=60).move_to_element_with_offset(canvas, *self.at(row, start)).click_and_hold()
        for step in range(1, steps + 1):
            actions.move_to_element_with_offset(canvas, *self.at(row, start + (end - start) * step / steps))
        (actions.release() if drop else actions).perform()
        if drop:
            self.settle()

    def pull(self, element, pixels, steps=5):
        """Drags an element to the side."""
        actions = ActionChains(self.browser, duration=60).move_to_element(element).click_and_hold()
        for _ in range(steps):
            actions.move_by_offset(pixels // steps, 0)
        actions.release().perform()
        self.settle()

    def click(self, row, moment):
        canvas = self.browser.find_element("id", "waves")
        ActionChains(self.browser, duration=20).move_to_element_with_offset(canvas, *self.at(row, moment)).click().perform()

    def keys(self, text):
        ActionChains(self.browser).send_keys(text).perform()

    def command(self, line):
        """Writes a line into the field of commands."""
        field = self.browser.find_element("id", "command")
        field.clear()
        field.send_keys(line + "\n")

    def problems(self):
        """What the browser complains of."""
        return [it["message"] for it in self.browser.get_log("browser") if it["level"] == "SEVERE" and "/ask/" not in it["message"]]
