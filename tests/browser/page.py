#!/usr/bin/env python3
"""Opens pages of `page` in headless Chromium, and compares what they say at each moment with what the program says.

    python3 -m tests.browser.page [--program PATH] [--shots FOLDER]
    python3 -m tests.browser.page [--program PATH] --picture    # makes the pictures of docs/PAGE.md, and tries nothing

The runs are those of tests/program/html_pages.py. At each moment: what the page says was done with `events`, how things
stand, and which lines are marked, with `where` behind the log cut to so many steps, the printed numbers and the framed
box with the events up to there. Then the keys and the buttons, and whether all fits into a wide window and a phone's.
Of each also the page with `--path`: which boxes and lines are marked, with the picture of `lanes --svg --path` and with
`span`; that all is gone while the box isn't ticked; and the keys and buttons that go along the path.
Into the folder go screenshots of these, in light and dark. Where no browser is found it says so, and the status is 0.
"""

from __future__ import annotations

import argparse
import base64
import itertools
import json
import os
import pathlib
import re
import shutil
import subprocess
import sys
import tempfile
from typing import Any

from tests import harness
from tests.program.html_pages import RUNS, Run, Wrong, made, same
from tests.harness import TOP

BROWSERS = ("chromium", "chromium-browser", "google-chrome", "chrome")
# Screenshots: a name, and how wide and high the window is.
SIZES = {"wide": (1200, 900), "phone": (390, 844)}
# The pictures of docs/PAGE.md: of which run and moment each is, with a path or not, in a window how wide and high.
PICTURES = (
    ("page.png", ("two-in-step.x10", "last", ()), 8, False, (1100, 810)),
    ("path-page.png", ("imbalanced.x10", "round", ()), 80, True, (1540, 860)),
)
# What a page shows.
SHOWN = """(() => {
  const lines = id => [...document.querySelectorAll(id + " > li")].flatMap((line, who) => [
    line.firstChild.textContent, ...[...line.querySelectorAll(".own")].map(own => `act ${who} ${own.textContent}`)]);
  const rows = [...document.querySelectorAll("#source > .row")];
  const box = document.querySelectorAll("#picture .now > title");
  return {
    event: document.getElementById("event").textContent,
    standings: [...lines("#activities"), ...lines("#clocks"), ...lines("#shared")],
    printed: document.getElementById("printed").textContent.split(" ").filter(word => word),
    badges: rows.flatMap((row, i) => [...row.querySelectorAll(".badge")].map(
      badge => [i + 1, badge.textContent, badge.classList.contains("waits")])),
    boxes: [...box].map(title => title.textContent),
    place: Number(document.getElementById("slider").value),
    most: Number(document.getElementById("slider").max),
    source: [...document.querySelectorAll("#source .code")].map(code => code.textContent).join("\\n"),
    marked: [...document.querySelectorAll("#picture .of-path > title")].map(title => title.textContent),
    counts: rows.flatMap((row, i) => row.firstChild.dataset.many ? [[i + 1, Number(row.firstChild.dataset.many)]] : []),
    seen: [...document.querySelectorAll("#picture .critical, .round, #span")].some(part => part.checkVisibility())
      || rows.some(row => getComputedStyle(row.firstChild, "::before").content !== "none"),
    fits: document.documentElement.scrollWidth <= window.innerWidth,
  };
})()"""


class Browser:
    """A headless browser, which is told what to do through two pipes."""

    def __init__(self, program: str, folder: str) -> None:
        words = [
            program,
            "--headless",
            "--no-sandbox",
            "--disable-gpu",
            "--remote-debugging-pipe",
            f"--user-data-dir={folder}",
            "about:blank",
        ]
        there, self.said = os.pipe()
        heard, here = os.pipe()

        def joined() -> None:
            kept = os.dup(there), os.dup(here)
            os.dup2(kept[0], 3)
            os.dup2(kept[1], 4)

        self.process = subprocess.Popen(
            words, preexec_fn=joined, pass_fds=(3, 4), stdout=subprocess.DEVNULL, stderr=subprocess.DEVNULL
        )
        os.close(there)
        os.close(here)
        self.hears, self.numbers, self.session = os.fdopen(heard, "rb"), itertools.count(1), None
        target = self.ask("Target.createTarget", url="about:blank")["targetId"]
        self.session = self.ask("Target.attachToTarget", targetId=target, flatten=True)["sessionId"]
        self.ask("Page.enable")

    def message(self) -> dict[str, Any]:
        """The next message of the browser: each ends in a zero byte."""
        read = bytearray()
        while (byte := self.hears.read(1)) != b"\0":
            if not byte:
                raise OSError("the browser has gone")
            read += byte
        return json.loads(read)

    def ask(self, method: str, **words: Any) -> dict[str, Any]:
        """Has the browser do something, and returns what it answers."""
        number = next(self.numbers)
        told = {"id": number, "method": method, "params": words}
        os.write(self.said, json.dumps(told | ({"sessionId": self.session} if self.session else {})).encode() + b"\0")
        while (message := self.message()).get("id") != number:
            pass
        if "error" in message:
            raise OSError(f"{method}: {message['error']}")
        return message["result"]

    def open(self, page: pathlib.Path, fragment: str = "") -> None:
        """Loads a page anew, and waits for it."""
        for address in ("about:blank", page.as_uri() + fragment):
            self.ask("Page.navigate", url=address)
            while self.value("document.readyState + location.href") != "complete" + address:
                pass

    def value(self, script: str) -> Any:
        answer = self.ask("Runtime.evaluate", expression=script, returnByValue=True, awaitPromise=True)
        if "exceptionDetails" in answer:
            raise OSError(answer["exceptionDetails"]["exception"].get("description"))
        return answer["result"].get("value")

    def press(self, key: str, shift: bool = False) -> None:
        for what in ("keyDown", "keyUp"):
            self.ask("Input.dispatchKeyEvent", type=what, key=key, code=key, modifiers=8 if shift else 0)

    def look(self, scheme: str, wide: int, high: int) -> None:
        """In light or dark, in a window of this size."""
        self.ask("Emulation.setEmulatedMedia", features=[{"name": "prefers-color-scheme", "value": scheme}])
        self.ask("Emulation.setDeviceMetricsOverride", width=wide, height=high, deviceScaleFactor=1, mobile=wide < 700)

    def shoot(self, path: pathlib.Path) -> None:
        path.write_bytes(base64.b64decode(self.ask("Page.captureScreenshot")["data"]))

    def close(self) -> None:
        self.ask("Browser.close")
        self.process.wait()


def wanted_badges(standings: list[str]) -> list[list[Any]]:
    """The lines of the source text where activities stand, whose they are, and whether they wait."""
    found = [re.match(r"act (\d+) at (\d+):\d+ (can|waits)", line) for line in standings]
    return sorted([int(it[2]), it[1], it[3] == "waits"] for it in found if it)


def rounds(run: Run) -> dict[int, str]:
    """The round of each step of the path that the page has, and how many steps the path has, as the page says it."""
    if not run.has_path:
        return {}
    long = run.span().split()[3]
    words = [step.split() for step in run.named()]
    return {int(word[1]): f", round {word[5]} of {long}" for word in words}


def compare(shown: dict[str, Any], run: Run, events: dict[int, str], steps: int, round_of: dict[int, str]) -> None:
    """What a page shows behind so many steps, with what the program says of it."""
    standings = run.where(steps).splitlines()
    prints = [re.search(r" print (-?\d+)$", line) for step, line in events.items() if step <= steps]
    same("steps", f"steps {steps}", standings[0])
    same(f"standings {steps}", shown["standings"], standings[1:])
    event = events.get(steps, "before the first step") + round_of.get(steps, "")
    same(f"event {steps}", shown["event"], event)
    same(f"printed {steps}", shown["printed"], [found[1] for found in prints if found])
    same(
        f"box {steps}",
        [title.split(" at ")[0] for title in shown["boxes"]],
        [re.split(" at | unit ", events[steps])[0]] if steps else [],
    )
    same(f"badges {steps}", sorted(shown["badges"]), [] if run.is_module else wanted_badges(standings))
    same(f"source {steps}", shown["source"], run.source().removesuffix("\n"))


def try_moments(browser: Browser, run: Run, page: pathlib.Path) -> int:
    """Goes through all moments by the address, and then by keys and buttons; how many there are."""
    events, asked, round_of = run.shown(), run.asked(), rounds(run)
    browser.look("light", *SIZES["wide"])
    browser.open(page)
    for place, steps in enumerate(asked):
        browser.value(f"location.hash = '#{steps}'; new Promise(done => setTimeout(done, 0))")
        shown = browser.value(SHOWN)
        compare(shown, run, events, steps, round_of)
        same(f"slider {steps}", [shown["place"], shown["most"]], [place, len(asked) - 1])
    try_moves(browser, len(asked) - 1)
    if run.has_path:
        try_path(browser, run, asked, list(round_of))
    return len(asked)


def try_path(browser: Browser, run: Run, asked: list[int], steps: list[int]) -> None:
    """The marked boxes and lines, the box to tick, and the keys and buttons that go along the path."""
    shown = browser.value(SHOWN)
    same("marked boxes", [int(title.split()[1]) for title in shown["marked"]], steps)
    same("lines", sum(many for _, many in shown["counts"]), 0 if run.is_module else int(run.span().split()[3]))
    said = browser.value("document.getElementById('span').textContent")
    same("span", f"{said}\n", run.span())
    scope = browser.value("document.querySelector('#way .scope').textContent")
    same("scope", scope, "; ".join(run.span().splitlines()[:: len(run.span().splitlines()) - 1]))
    for is_seen in (False, True):
        browser.value("document.querySelector('#way input').click()")
        same("ticked", browser.value(SHOWN)["seen"], is_seen)
    places = [asked.index(step) for step in steps]
    goes = {
        "p": lambda: browser.press("p"),
        "next": lambda: browser.value("document.querySelectorAll('#way button')[1].click()"),
        "P": lambda: browser.press("P", shift=True),
        "back": lambda: browser.value("document.querySelectorAll('#way button')[0].click()"),
    }
    for name, go in goes.items():
        is_back = name in ("P", "back")
        browser.press("End" if is_back else "Home")
        begins = len(asked) - 1 if is_back else 0
        for place in [place for place in (reversed(places) if is_back else places) if place != begins]:
            go()
            same(name, browser.value(SHOWN)["place"], place)
        kept = browser.value(SHOWN)["place"]
        go()
        same(f"{name} at the end", browser.value(SHOWN)["place"], kept)


def try_moves(browser: Browser, last: int) -> None:
    """The keys, wherever one is on the page, and the buttons, and no further than there are moments."""
    moves = [
        ("Home", 0),
        ("ArrowLeft", 0),
        ("ArrowRight", 1),
        ("End", last),
        ("ArrowRight", last),
        ("ArrowLeft", last - 1),
    ]
    for before in ("document.activeElement.blur()", "document.getElementById('slider').focus()"):
        browser.value(before)
        for key, place in moves:
            browser.press(key)
            same(key, browser.value(SHOWN)["place"], place)
    for button, place in (("back", last - 2), ("next", last - 1)):
        browser.value(f"document.getElementById('{button}').click()")
        same(button, browser.value(SHOWN)["place"], max(0, place))


def try_looks(browser: Browser, page: pathlib.Path, steps: int, shots: pathlib.Path | None) -> None:
    """Whether nothing is wider than the window, behind so many steps; screenshots go into the folder, if there is
    one."""
    for scheme, (size, (wide, high)) in itertools.product(("light", "dark"), SIZES.items()):
        browser.look(scheme, wide, high)
        browser.open(page, f"#{steps}")
        same(f"{scheme} {size}", browser.value(SHOWN)["fits"], True)
        if shots:
            browser.shoot(shots / f"{page.stem}-{size}-{scheme}.png")


def paged(
    program: pathlib.Path, name: str, order: str, part: tuple[int, ...], folder: pathlib.Path
) -> tuple[Run, pathlib.Path]:
    """A run of a program, and its page."""
    run = made(program, name, order, part, folder)
    page = folder / f"{run.file.stem}{'-part' if part else ''}.html"
    page.write_bytes(run.page().encode())
    return run, page


def pathed(run: Run, page: pathlib.Path) -> tuple[Run, pathlib.Path]:
    """The same with a critical path."""
    other, there = run._replace(has_path=True), page.with_stem(f"{page.stem}-path")
    there.write_bytes(other.page().encode())
    return other, there


def pictures(browser: Browser, program: pathlib.Path, folder: pathlib.Path) -> None:
    """Makes the pictures of docs/PAGE.md anew."""
    os.chdir(TOP)
    browser.ask("Emulation.setScrollbarsHidden", hidden=True)
    for name, of, step, has_path, size in PICTURES:
        run = made(program.resolve(), *of, folder)
        page = folder / "page.html"
        page.write_bytes(run._replace(file=run.file.relative_to(TOP), has_path=has_path).page().encode())
        browser.look("light", *size)
        browser.open(page, f"#{step}")
        browser.shoot(TOP / "examples/pictures" / name)
        print(f"examples/pictures/{name}")


def main() -> int:
    words = argparse.ArgumentParser()
    harness.add_program(words)
    words.add_argument("--shots", type=pathlib.Path)
    words.add_argument("--picture", action="store_true")
    asked = words.parse_args()
    found = next(filter(None, map(shutil.which, BROWSERS)), None)
    if not found:
        print("no browser is here: nothing was tried")
        return 0
    if asked.shots:
        asked.shots.mkdir(parents=True, exist_ok=True)
    with tempfile.TemporaryDirectory() as there:
        folder = pathlib.Path(there)
        browser = Browser(found, f"{there}/browser")
        try:
            if asked.picture:
                pictures(browser, asked.program, folder)
            for name, order, part in () if asked.picture else RUNS:
                plain = paged(asked.program, name, order, part, folder)
                for run, page in (plain, pathed(*plain)):
                    print(page.name, try_moments(browser, run, page), "moments", flush=True)
                    steps = run.asked()
                    try_looks(browser, page, steps[len(steps) // 2], asked.shots)
        except Wrong as wrong:
            print(f"{name}: {wrong}", file=sys.stderr)
            return 1
        finally:
            browser.close()
    return 0


if __name__ == "__main__":
    sys.exit(main())
