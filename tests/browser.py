"""The live page as a maker sees it: the command `quoting watch` on a free port, and its page in Chromium."""

import re
import select
import signal
import subprocess
import time
from pathlib import Path

from selenium import webdriver
from selenium.webdriver.chrome.service import Service
from selenium.webdriver.common.keys import Keys

from tests.command import restore_sigint
from tests.paths import ROOT, TARGET

SHOTS = TARGET / "watch"
PATIENCE = 60  # seconds: for a machine that has other work
LINK = re.compile(r"watching (.+): (http://\S+)\n")


CUT = """
const cells = [...document.querySelectorAll(".cell")].filter(cell => cell.scrollWidth > cell.clientWidth);
return cells.map(cell => [cell.dataset.cell, cell.textContent]);
"""


def children(pid):
    return [int(word) for word in Path(f"/proc/{pid}/task/{pid}/children").read_text().split()]


class Served:
    """The command, until the `with` block ends: then by Ctrl-C, with the status and the sentence of every command."""

    def __init__(self, *words, tree=ROOT, command=("watch",)):
        pipes = {"stdin": subprocess.PIPE, "stdout": subprocess.PIPE, "stderr": subprocess.PIPE}
        self.process = subprocess.Popen([tree / "quoting", *command, *map(str, words), "--port", "0"], cwd=ROOT, preexec_fn=restore_sigint, **pipes)
        line = self.process.stdout.readline().decode() if select.select([self.process.stdout], [], [], PATIENCE)[0] else "nothing"
        found = LINK.fullmatch(line)
        if found is None:
            self.process.kill()
            raise AssertionError(("the command says", line, self.process.stderr.read().decode()))
        self.name, self.link = found.groups()
        self.port = int(re.search(r":(\d+)/", self.link)[1])

    def __enter__(self):
        return self

    def __exit__(self, kind, error, trace):
        self.stop()

    def send(self, text):
        self.process.stdin.write(text.encode())
        self.process.stdin.flush()

    def stop(self, number=signal.SIGINT):
        """Ends it by a signal; the seconds that it took."""
        if self.process.poll() is not None:
            return 0.0
        left, began = children(self.process.pid), time.monotonic()
        self.process.send_signal(number)
        self.process.wait(PATIENCE)
        took = time.monotonic() - began
        said = self.process.stderr.read().decode()
        assert (self.process.returncode, said) == (130, "quoting: stopped\n"), (self.process.returncode, said)
        assert not [pid for pid in left if Path(f"/proc/{pid}").exists()], "a child is left"
        for stream in (self.process.stdin, self.process.stdout, self.process.stderr):
            stream.close()
        return took


# ---------------------------------------------------------------- the page

# All figures at one moment: what is drawn is drawn between two of these.
SEEN = """
const texts = {};
for (const each of document.querySelectorAll("[data-figure]")) texts[each.dataset.figure] = each.textContent;
const kind = id => document.getElementById(id).dataset.kind ?? "";
return {...texts, title: document.title, band: kind("hero"), feedKind: kind("feed"), readingsKind: kind("readings"),
  stateKey: document.querySelector("[data-figure=state]").dataset.key ?? "", isOpen: !document.getElementById("open").hidden,
  answerKind: kind("answer"), answerN: document.getElementById("answer").dataset.n ?? "",
  orders: [...document.querySelectorAll("#orders tr")].map(row => [...row.children].map(cell => cell.textContent)),
  problems: [...document.querySelectorAll("#problems tr")].map(row => row.textContent),
  cells: Object.fromEntries([...document.querySelectorAll("[data-cell]")].map(cell => [cell.dataset.cell, cell.dataset.kind])),
  stop: [...document.querySelectorAll("#stop-rows tr")].map(row => [...row.children].map(cell => cell.textContent).concat(row.dataset.same)),
  isRed: document.body.classList.contains("differs"), allHidden: document.getElementById("all").hidden};
"""


class Browser:
    """Chromium, without a window."""

    def __init__(self):
        options = webdriver.ChromeOptions()
        options.binary_location = "/usr/bin/chromium"
        for word in ("--headless=new", "--no-sandbox", "--hide-scrollbars", "--force-device-scale-factor=1", "--disable-dev-shm-usage"):
            options.add_argument(word)
        options.set_capability("goog:loggingPrefs", {"browser": "ALL"})
        self.driver = webdriver.Chrome(service=Service("/usr/bin/chromedriver"), options=options)
        self.size(1280)

    def __enter__(self):
        return self

    def __exit__(self, kind, error, trace):
        self.driver.quit()

    def visit(self, link):
        self.driver.get(link)
        self.until("the page has its figures", lambda seen: seen["band"] and seen["name"])

    def leave(self):
        """Away from the page; whatever its console has is a fault."""
        said = self.console()
        assert not said, said
        self.driver.get("about:blank")

    def start_over(self):
        """One empty window and an empty console, whatever a test before this has left."""
        first, *others = self.driver.window_handles
        for handle in others:
            self.driver.switch_to.window(handle)
            self.driver.close()
        self.driver.switch_to.window(first)
        self.driver.get("about:blank")
        self.console()
        self.size(1280)
        self.theme("light")

    def console(self):
        return [each["message"] for each in self.driver.get_log("browser")]

    def seen(self):
        return self.driver.execute_script(SEEN)

    def until(self, what, holds, seconds=PATIENCE):
        """What is seen once it holds."""
        ends = time.monotonic() + seconds
        while True:
            seen = self.seen()
            if holds(seen):
                return seen
            assert time.monotonic() < ends, (what, seen)
            time.sleep(0.03)

    def run(self, script, *given):
        return self.driver.execute_script(script, *given)

    def press(self, *keys):
        self.driver.switch_to.active_element.send_keys(*keys)

    # ------------------------------------------------------------ sizes and pictures

    def size(self, width, height=900):
        metrics = {"width": width, "height": height, "deviceScaleFactor": 1, "mobile": False}
        self.driver.execute_cdp_cmd("Emulation.setDeviceMetricsOverride", metrics)

    def theme(self, name):
        features = [{"name": "prefers-color-scheme", "value": name}]
        self.driver.execute_cdp_cmd("Emulation.setEmulatedMedia", {"features": features})

    def shoot(self, name, widths=(1280, 390), themes=("light", "dark")):
        """Pictures to be looked at; nothing may stick out to the right, nor may a cell's text be cut."""
        SHOTS.mkdir(parents=True, exist_ok=True)
        for width in widths:
            self.size(width)
            for theme in themes:
                self.theme(theme)
                time.sleep(0.15)
                wide, high = self.run("const page = document.documentElement; return [page.scrollWidth, page.scrollHeight]")
                assert wide <= width, (name, width, wide)
                assert not self.run(CUT), (name, width, self.run(CUT))
                self.size(width, high)
                time.sleep(0.1)
                (SHOTS / f"{name}-{width}-{theme}.png").write_bytes(self.driver.get_screenshot_as_png())
                self.size(width)
        self.size(1280)
        self.theme("light")


TAB, ENTER, SPACE, LEFT, RIGHT, UP, DOWN, HOME, END = (
    Keys.TAB, Keys.ENTER, Keys.SPACE, Keys.ARROW_LEFT, Keys.ARROW_RIGHT, Keys.ARROW_UP, Keys.ARROW_DOWN, Keys.HOME, Keys.END)
