#!/usr/bin/env python3
"""Tests tools/view in a real browser: steps, clicks, and compares what the page shows with what `replay steps` prints.

Usage: tests/view.py [COMMAND ..]

COMMAND is a command of `trace_cli` that ends with the word `seq`; `why` and `replay` are the programs that were built
beside it. Without it those of this repository are tested. Where Debian's packages chromium, chromium-driver and
python3-selenium aren't installed, or a program isn't built, the pages are left out, and a line says so. Exits with 1
where a check failed.
"""

import importlib.util
import os
import re
import shutil
import sys
import tempfile
from collections.abc import Callable, Iterable, Iterator
from functools import partial
from itertools import islice
from pathlib import Path
from typing import Any, NamedTuple, TypedDict

from common import ROOT, Check, Script, beside, called_bytes, left_out, there

DEBIANS = "/usr/bin/python3"
# So long may a script take in the browser, and so many keys are pressed by one.
SECONDS, AT_ONCE = 100, 20
sys.path.insert(0, str(ROOT / "tools"))
sys.dont_write_bytecode = True

from loops import Programs, Step, Steps, Unreadable, read_steps     # noqa: E402
from loops.instructions import spelled                              # noqa: E402

# A browser, and a part of a page, of selenium, which is taken to have no types.
Browser = Any
Element = Any


class PlaceShown(TypedDict):
    """What the page shows at a place, as the script below reads it; `stored` and `framed` are masks of bytes."""
    address: str
    state: str
    mark: str
    mask: str
    bytes: str
    none: str
    text: str
    word: str
    stored: int
    framed: int
    marked: bool


class Shown(TypedDict):
    """What the page shows: the turn, each place by its name, and the text of each core."""
    turn: int
    places: dict[str, PlaceShown]
    cores: list[str]


# Each of two epochs loads from, or stores to, five lines in turn: on two cores the buffer of the second one is full, or
# that of the first one is when the second asks.
LOADS_FIRST = "630e05002320a0042328a0042320a0062328a0062320a00867800000832200048322000583220006832200078322000867800000"
STORES_FIRST = ("630e05008322000483220005832200068322000783220008678000002320a0042328a0042320a0062328a006"
                "2320a00867800000")
FIVE_LINES = "0 0 0 0 0 0 1 1 1 1 1 1 0 1 1"
# Each epoch loads the word at 40 and stores it.
SHORT = "83220004232050046780000013000000"
# What the page shows: the turn, the text of each core, and each place, without the word that says a change; and that
# word. A walk presses a key so many times, and answers what is shown before each time and at the end.
SCRIPT = """
// The bytes of a kind, as a mask: bit i is byte i.
function maskOf(copy, kind) {
  const bytes = copy.querySelector('.bytes')?.cloneNode(true);
  bytes?.querySelectorAll('.' + kind).forEach(one => { one.textContent = '__'; });
  const all = bytes?.textContent.replace(/ /g, '').match(/../g) ?? [];
  return all.reduce((mask, byte, place) => byte === '__' ? mask + 2 ** place : mask, 0);
}
function shownPlace(part) {
  const copy = (part.dataset.place.startsWith('kept ') ? part.closest('tr') : part).cloneNode(true);
  const words = [...copy.querySelectorAll('.word')], told = {};
  words.forEach(one => one.remove());
  for (const kind of ['address', 'state', 'mark', 'mask', 'bytes', 'none'])
    told[kind] = copy.querySelector('.' + kind)?.textContent.replace(/ /g, '') ?? '';
  const word = words.map(one => one.textContent).join(' '), text = copy.textContent.replace(/\\s+/g, ' ').trim();
  const stored = maskOf(copy, 'stored'), framed = maskOf(copy, 'new');
  return { ...told, text, word, stored, framed, marked: part.classList.contains('changed') };
}
function shown() {
  const places = [...document.querySelectorAll('[data-place]')].map(part => [part.dataset.place, shownPlace(part)]);
  const cores = [...document.querySelectorAll('.core')].map(one => one.textContent);
  return { turn: Number(document.getElementById('turn').value), places: Object.fromEntries(places), cores };
}
function walked(key, times) {
  const all = [shown()];
  for (let time = 0; time < times; time++) {
    document.body.dispatchEvent(new KeyboardEvent('keydown', { key, bubbles: true }));
    all.push(shown());
  }
  return all;
}
"""


def image(code: str, epochs: int = 2, remarks: str = "") -> str:
    return f"{remarks}size 256\nepochs {epochs}\nlimit 100\ncode {code}\n"


def example(name: str) -> str:
    return (ROOT / "examples" / f"{name}.image").read_text(encoding="latin-1")


# --- What needs no browser ----------------------------------------------------

def spelled_by_as(text: str, word: int, pc: int) -> str:
    """The text of a row of the vectors, as the GNU assembler takes it, in the manner of the page: `beq x6,x7,.+8` has
    its target as an address."""
    if text.startswith("fence") and word & 0x7000 == 0 or word & 0x707F == 0x0F:
        return "fence"
    name, _, rest = text.partition(" ")
    return re.sub(r"\.([+-]\d+)$", lambda found: f"{(pc + int(found[1])) & 0xFFFFFFFF:08x}", f"{name} {rest}".strip())


def disassembly() -> Iterator[Check]:
    """Each instruction of the vectors, and words that are none."""
    pc, seen = 0x1000, set[str]()
    for path in sorted((ROOT / "tests" / "vectors").glob("*.txt")):
        rows = [line.split(" | ")[:2] for line in path.read_text().splitlines() if not line.startswith("#")]
        wanted = {int(word, 16): f".word 0x{word}" if path.stem == "illegal" else spelled_by_as(text, int(word, 16), pc)
                  for text, word in rows}
        wrong = {word: (spelled(word, pc), text) for word, text in wanted.items() if spelled(word, pc) != text}
        seen |= {text.split(" ")[0] for text in wanted.values()}
        yield f"the words of {path.name}", f"{list(wrong.values())[:3]}" if wrong else None
    yield "all instructions", None if len(seen - {".word"}) == 40 else f"{len(seen)}: {sorted(seen)}"


def forms() -> Iterator[Check]:
    """What isn't of the form is refused, and what is can be written again."""
    text = ("turn 0 1 go\nentry 1 load 00000040 4 00000000\nattempt 1 0 speculative\nhart 1 00000004 1\norb 1 "
            "00000040\norb 1\nat 00000040 00\n"
            "turn 1 1 over fault 0 5 00000000\nend\nopen 1\n")
    told = read_steps(text.replace("orb 1 00000040\n", ""))
    yield "written again", None if told.text() == text.replace("orb 1 00000040\n", "") else told.text()
    for wrong in ("turn 0 1 go\n", "attempt 1 -\nend\n", "turn 0 1 go\nway 1 -\nend\n", "turn 0 go\nend\n"):
        try:
            yield f"refused: {wrong!r}", f"is read as {read_steps(wrong)}"
        except Unreadable:
            yield f"refused: {wrong!r}", None


# --- The browser ----------------------------------------------------------------

def find_selenium() -> None:
    """Runs this program anew by Debian's Python, where the one that runs it has no selenium."""
    if (importlib.util.find_spec("selenium") is None and Path(DEBIANS).exists()
        and Path(DEBIANS).resolve() != Path(sys.executable).resolve()):
        os.execv(DEBIANS, [DEBIANS, *sys.argv])


def driver() -> Browser | None:
    """A browser, or None where one isn't installed."""
    try:
        from selenium import webdriver
        from selenium.webdriver.chrome.service import Service
    except ImportError:
        return None
    if not all(shutil.which(name) for name in ("chromium", "chromedriver")):
        return None
    options = webdriver.ChromeOptions()
    options.binary_location = shutil.which("chromium")
    options.set_capability("goog:loggingPrefs", {"browser": "ALL"})
    for word in ("--headless", "--no-sandbox", "--disable-gpu", "--disable-dev-shm-usage", "--window-size=1280,1400"):
        options.add_argument(word)
    browser = webdriver.Chrome(options=options, service=Service(shutil.which("chromedriver")))
    browser.set_script_timeout(SECONDS)
    return browser


class Page:
    """A page in the browser: what a person does to it, and what it shows."""

    def __init__(self, browser: Browser, path: Path, link: str = "") -> None:
        from selenium.webdriver.common.by import By
        from selenium.webdriver.common.keys import Keys
        self.browser, self.by, self.keys = browser, By, Keys
        browser.get("about:blank")
        browser.get(f"file://{path}{link}")

    def element(self, name: str) -> Element:
        return self.browser.find_element(self.by.ID, name)

    def text(self, name: str) -> str:
        return " ".join(self.element(name).text.split())

    def shown(self) -> Shown:
        shown: Shown = self.browser.execute_script(SCRIPT + "return shown()")
        return shown

    def walked(self, key: str, times: int) -> list[Shown]:
        """What is shown before each press of a key, so many times, and at the end; some presses a call, so that none
        takes long on a busy machine."""
        all_shown = [self.shown()]
        for place in range(0, times, AT_ONCE):
            all_shown += self.browser.execute_script(SCRIPT + "return walked(...arguments)", key,
                                                     min(AT_ONCE, times - place))[1:]
        return all_shown

    def press(self, *keys: str) -> None:
        self.browser.find_element(self.by.TAG_NAME, "body").send_keys(*keys)

    def click(self, name: str) -> None:
        self.element(name).click()

    def turn(self) -> int:
        return int(self.element("turn").get_attribute("value"))

    def link(self, hash: str) -> None:
        self.browser.execute_script("location.hash = arguments[0]", hash)

    def press_until(self, key: str, words: str, most: int = 400) -> int | None:
        """Presses a key until the page says these words. Answers the turn, or None."""
        for _ in range(most):
            if words in self.text("said"):
                return self.turn()
            self.press(key)
        return None

    def errors(self) -> list[str]:
        return [it["message"] for it in self.browser.get_log("browser") if it["level"] == "SEVERE"]


# --- What a page has to show of a place ---------------------------------------------

def first_of(wrong: Iterable[str]) -> str | None:
    """The first of what is wrong, or None."""
    return "; ".join(islice(wrong, 3)) or None


def of_line(text: str, got: PlaceShown) -> bool:
    if text == "-":
        return got["none"] == "empty"
    address, state, loaded, mask, data = text.split(" ")
    return (got["address"], got["state"], got["mark"], int(got["mask"] or "0", 16), got["stored"], got["bytes"]) == (
        address, state, "loaded" if loaded == "loaded" else "", int(mask, 16), int(mask, 16), data)


def of_buffer(text: str, got: PlaceShown) -> bool:
    lines = re.findall(r"\b[0-9a-f]{8}\b", got["text"])
    return lines == text.split() and got["text"].startswith(f"buffer, {len(lines)} of ")


def of_kept(text: str, got: PlaceShown) -> bool:
    read, own, data = text.split(" ")
    stored = "".join(data[2 * at:2 * at + 2] if int(own, 16) >> at & 1 else "--" for at in range(16))
    return [got["mark"], got["mask"], got["stored"], got["bytes"]] == [read, own, int(own, 16), stored]


def of_hart(text: str, got: PlaceShown) -> bool:
    pc, _, done = text.partition(" ")
    return got["text"] == "nothing in hand" if pc == "-" else got["text"].startswith(f"{done} executed; next {pc} ")


def of_attempt(text: str, got: PlaceShown) -> bool:
    epoch, _, mode = text.partition(" ")
    if epoch == "-":
        return got["text"].endswith(("no epoch", "was rolled back", "was cancelled"))
    return f": epoch {epoch}, attempt " in got["text"] and got["text"].endswith(f", {mode}")


def printed(steps: Steps) -> list[dict[str, str]]:
    """After each turn what stands at each place, as `replay steps` prints it."""
    return [{place: change.said for place, change in state.items()} for state in steps.states()]


OF_PLACE: dict[str, Callable[[str, PlaceShown], bool]] = {
    "line": of_line, "orb": of_buffer, "kept": of_kept, "hart": of_hart, "attempt": of_attempt,
    "at": lambda text, got: got["bytes"] == text,
}


def framed(place: str, old: str, new: str) -> int:
    """The bytes that aren't as they were, as a mask: of committed memory, and of a line that the way had before."""
    if place.startswith("line ") and old.split(" ")[0] != new.split(" ")[0] or new == "-":
        return 0
    before, now = bytes.fromhex(old.split(" ")[-1]), bytes.fromhex(new.split(" ")[-1])
    return sum(1 << at for at in range(len(now)) if before[at] != now[at])


def is_left_out(kind: str, text: str) -> bool:
    """Whether a place may not be shown that hasn't changed: nothing is kept of a row, or in a large cache a copy isn't
    marked."""
    if kind == "kept":
        return int("".join(text.split(" ")[:2]), 16) == 0
    return kind == "line" and (text == "-" or not text.split(" ")[1].startswith("Sp") and text.split(" ")[2] == "-"
                               and int(text.split(" ")[3], 16) == 0)


def differences(shown: Shown, state: dict[str, str], step: Step, before: dict[str, str]) -> Iterator[str]:
    """Where the page shows something else than the state after a turn, or doesn't say what changed from the state
    before."""
    places, waits = shown["places"], step.answer.split(" ")[1] if step.answer.startswith("again ") else ""
    for place, text in state.items():
        kind, got = place.split(" ")[0], places.get(place)
        is_changed, is_gone = place in {it.place for it in step.changes}, is_left_out(kind, text)
        if got is None and is_gone and not is_changed:
            continue
        if got is None or not OF_PLACE[kind](text, got):
            yield f"{place}: {got}, and not {text!r}"
        elif (got["marked"], got["word"] != "") != (is_changed, is_changed):
            yield f"{place}: marked {got['marked']}, with the word {got['word']!r}"
        elif (kind in ("line", "at")
              and got["framed"] != (framed(place, before.get(place, "-" if kind == "line" else "00" * 16), text)
                                    if is_changed else 0)):
            yield f"{place}: framed {got['framed']:x}"
    yield from (f"{place}: marked" for place, got in places.items() if place not in state and got["marked"]
                and not place.startswith("wait "))
    if shown["turn"] != step.turn or waits not in shown["cores"][step.core]:
        yield f"turn {shown['turn']}, and not {step.turn} {step.answer}: {shown['cores'][step.core][:100]}"


def whole_run(page: Page, steps: Steps) -> Iterator[Check]:
    """(what it shows, what is wrong or None) of all turns, by the keys."""
    states, count = printed(steps), len(steps.steps)
    for number in range(3):
        yield f"turn {number}", first_of(differences(page.shown(), states[number], steps.steps[number],
                                                     states[number - 1] if number else {}))
        page.press(page.keys.ARROW_RIGHT)
    page.press(page.keys.HOME)
    for key, numbers in (("ArrowRight", range(count)), ("ArrowLeft", range(count - 1, -1, -1))):
        all_shown = page.walked(key, count - 1)
        yield (f"all turns by {key}",
               first_of(f"turn {number}: {one}" for number, shown in zip(numbers, all_shown)
                        for one in differences(shown, states[number], steps.steps[number],
                                               states[number - 1] if number else {})))
    page.press(page.keys.END, page.keys.ARROW_RIGHT)
    yield "no turn beyond the last", None if page.turn() == steps.steps[-1].turn else f"{page.turn()}"


def moves(page: Page, steps: Steps) -> Iterator[Check]:
    """(what it shows, what is wrong or None) of buttons, keys, links and the lanes."""
    hurts = [step.turn for step in steps.steps if any(entry.what == "hurt" for entry in step.entries)]
    page.click("first")
    seen: list[tuple[int, bool]] = []
    for _ in hurts:
        page.click("rollback-on")
        seen.append((page.turn(), "is rolled back: epoch" in page.text("said")))
    yield "its rollbacks, by clicks", None if seen == [(turn, True) for turn in hurts] else f"{seen}, and not {hurts}"
    page.press("R")
    yield "the rollback before", None if not hurts[1:] or page.turn() == hurts[-2] else f"{page.turn()}"
    of_one = [step.turn for step in steps.steps if step.core == 1]
    page.press(page.keys.HOME, "1", "1")
    yield ("the second turn of core 1, by its key",
           None if page.turn() == of_one[1] else f"{page.turn()}, and not {of_one[1]}")
    page.click("back-1")
    yield "the turn of core 1 before", None if page.turn() == of_one[0] else f"{page.turn()}, and not {of_one[0]}"
    middle = steps.steps[len(steps.steps) // 2].turn
    page.link(f"#turn={middle}")
    yield "a link", None if page.turn() == middle else f"{page.turn()}, and not {middle}"
    page.element("turn").send_keys(page.keys.CONTROL, "a")
    page.element("turn").send_keys("3", page.keys.ENTER)
    yield "a number that is typed", None if page.turn() == steps.steps[3].turn else f"{page.turn()}"
    place = page.browser.execute_script("return across(arguments[0] + 0.5) - element('lanes').clientWidth / 2", 5)
    from selenium.webdriver import ActionChains
    ActionChains(page.browser).move_to_element_with_offset(page.element("drawn"), round(place), 0).click().perform()
    yield "a click on a lane", None if abs(page.turn() - steps.steps[5].turn) <= 1 else f"{page.turn()}"
    page.press(page.keys.HOME, page.keys.ARROW_RIGHT)
    page.browser.execute_async_script("setTimeout(arguments[0], 400)")
    hash = page.browser.execute_script("return location.hash")
    yield "the link of what is shown", None if hash == f"#turn={steps.steps[1].turn}" else hash


# --- Who reads it ---------------------------------------------------------------------

# The texts whose ratio of contrast with what is behind them is below 4.5, by WCAG 2.1 (relative luminance, 1.4.3): each
# with the ratio. A background that is partly clear lies over the one behind it.
CONTRAST = """
const rgba = text => { const all = text.match(/[\\d.]+/g).map(Number); return all.length < 4 ? [...all, 1] : all; };
const part = value => value / 255 <= 0.03928 ? value / 255 / 12.92 : ((value / 255 + 0.055) / 1.055) ** 2.4;
const luminance = ([red, green, blue]) => 0.2126 * part(red) + 0.7152 * part(green) + 0.0722 * part(blue);
const over = (top, below) => [0, 1, 2].map(at => top[at] * top[3] + below[at] * (1 - top[3]));
function behind(one) {
  const own = rgba(getComputedStyle(one).backgroundColor);
  return own[3] === 1 ? own : over(own, one.parentElement ? behind(one.parentElement) : [255, 255, 255]);
}
const hasText = one => [...one.childNodes].some(node => node.nodeType === 3 && node.data.trim());
const seen = [...document.querySelectorAll('body *')].filter(one => one.checkVisibility() && hasText(one));
const ratios = seen.map(one => {
  const ink = over(rgba(getComputedStyle(one).color), behind(one));
  const [low, high] = [luminance(ink), luminance(behind(one))].sort((a, b) => a - b);
  return [(high + 0.05) / (low + 0.05), one.tagName + '.' + one.className + ': ' + one.textContent.trim().slice(0, 30)];
});
return [ratios.length, ratios.filter(([ratio]) => ratio < 4.5)];
"""
# What a reader has to be able to ask for by name.
NAMED = {"button", "spinbutton", "image", "table", "navigation", "region", "heading"}
SIZES = [("400 pixels", 400, 1), ("200 % of 1280 pixels", 640, 2), ("400 % of 1280 pixels", 320, 4)]


def emulate(browser: Browser, width: int, scale: int = 1, scheme: str = "light") -> None:
    """A window so many CSS pixels wide, each of so many of the screen's in a row, in light or dark."""
    browser.execute_cdp_cmd("Emulation.setDeviceMetricsOverride",
                            {"width": width, "height": 1000, "deviceScaleFactor": scale, "mobile": False})
    browser.execute_cdp_cmd("Emulation.setEmulatedMedia",
                            {"features": [{"name": "prefers-color-scheme", "value": scheme}]})
    browser.execute_async_script("const end = arguments[0]; requestAnimationFrame(() => requestAnimationFrame(() => "
                                 "end()))")


def accessible(browser: Browser) -> list[tuple[str, str]]:
    """Role and name of what the browser tells a screen reader of the page."""
    nodes = browser.execute_cdp_cmd("Accessibility.getFullAXTree", {})["nodes"]
    return [(node["role"]["value"], node.get("name", {}).get("value", "")) for node in nodes if not node["ignored"]]


def lanes_as_text(page: Page) -> list[str]:
    """The rows of the table of lanes, which the page makes soon after it is opened."""
    page.browser.find_element(page.by.TAG_NAME, "summary").click()
    page.browser.execute_async_script("const end = arguments[0], look = () => element('attempts').rows.length ? end() "
                                      ": setTimeout(look, 10); look()")
    return [row.text for row in page.browser.find_elements(page.by.CSS_SELECTOR, "#attempts tr")]


def named_parts(page: Page) -> Iterator[Check]:
    """Names of buttons, lanes and sets, as a screen reader has them."""
    parts = accessible(page.browser)
    buttons = [name for role, name in parts if role == "button"]
    core = [f"{which} of core {core}" for core in range(3) for which in ("turn before", "next turn")]
    wanted = ["first turn", "turn before", "turn after", "last turn", "rollback before", "next rollback", "wait before",
              "next wait", *core]
    yield "the names of its buttons", None if buttons == wanted else f"{buttons}"
    bare = [role for role, name in parts if role in NAMED and not re.search("[a-z]", name)]
    yield ("each part has a name",
           None if not bare and NAMED <= {role for role, _ in parts}
           else f"{bare}, {sorted({role for role, _ in parts})}")
    told = page.browser.find_elements(page.by.CSS_SELECTOR, "#cores-of-lanes li")
    yield ("the names of its lanes",
           None if [one.text for one in told] == ["core 0", "core 1", "core 2"] else f"{[one.text for one in told]}")
    told = [one.text for one in page.browser.find_elements(page.by.CSS_SELECTOR, "#core-0 .cache th[scope=row]")]
    yield "the names of sets", None if told == ["set 0", "set 1", "set 2", "set 3"] else f"{told}"
    page.browser.execute_script("toTurn(18)")
    states = {one.text: one.get_attribute("title")
              for one in page.browser.find_elements(page.by.CSS_SELECTOR, "#core-2 .state")}
    said = page.browser.find_element(page.by.CSS_SELECTOR, "#core-2 .states").text
    wrong = [name for name, told in states.items() if f"{name} is {told}." not in said]
    yield ("what its states mean", None if set(states) == {"SpS",
                                                          "SpE"} and "no other core holds the line" in states["SpE"]
           and not wrong else f"{states}, {said!r}")
    rows = lanes_as_text(page)
    lane = next((row for row in rows if row.startswith("core 0 3 1 ")), "")
    head = "core epoch attempt from turn to turn and then"
    yield ("its lanes as text",
           None if (rows[0], len(rows) - 1, lane) == (head, 22, "core 0 3 1 14 19 is rolled back") else f"{rows}")


def keyboard(page: Page, steps: Steps) -> Iterator[Check]:
    """All by the keyboard, wherever the focus is."""
    from selenium.webdriver import ActionChains
    keys = page.keys

    def pressed(*words: str) -> int:
        ActionChains(page.browser).send_keys(*words).perform()
        return page.turn()

    def typed(*words: str) -> int:
        page.browser.execute_script("element('turn').focus()")
        ActionChains(page.browser).key_down(keys.CONTROL).send_keys("a").key_up(keys.CONTROL).perform()
        return pressed(*words)

    def focused() -> str:
        return str(page.browser.execute_script("return document.activeElement.id"))

    turns = [step.turn for step in steps.steps]
    of_one = [step.turn for step in steps.steps if step.core == 1]
    page.browser.refresh()
    reached = []
    for _ in range(16):
        pressed(keys.TAB)
        reached.append(focused())
    ids = page.browser.execute_script("return [...document.querySelectorAll('nav button, nav input, summary')].map(one "
                                      "=> one.id)")
    yield "the tabulator reaches all", None if reached == ids[:16] and len(ids) == 16 else f"{reached}, and not {ids}"
    pressed(keys.HOME)
    page.browser.execute_script("element('on').focus()")
    told = [pressed(keys.SPACE), pressed(keys.ENTER), pressed(keys.ARROW_RIGHT)]
    yield "keys on a button", None if told == turns[1:4] else f"{told}"
    told = [typed("12", keys.ENTER), pressed(keys.ARROW_RIGHT), pressed("1")]
    wanted = [turns[12], turns[13], next(turn for turn in of_one if turn > turns[13])]
    yield "keys after a number and Enter", None if told == wanted else f"{told}, and not {wanted}"
    told = [typed("20", keys.ARROW_RIGHT), pressed(keys.END), pressed(keys.HOME)]
    wanted = [turns[21], turns[-1], turns[0]]
    yield "keys right after a number", None if told == wanted else f"{told}, and not {wanted}"
    told, focus = [typed(keys.BACKSPACE, keys.ENTER), typed("5", keys.ESCAPE)], focused()
    yield ("no number, and one that is taken back",
           None if (told, focus) == ([turns[0], turns[0]], "") else f"{told}, {focus!r}")


def sizes(page: Page) -> Iterator[Check]:
    """Nothing scrolls sideways, in both colours, and all texts can be read."""
    for name, width, scale in SIZES:
        emulate(page.browser, width, scale)
        wide, room, inner = page.browser.execute_script("const all = document.documentElement; return "
                                                        "[all.scrollWidth, all.clientWidth, innerWidth]")
        yield f"no sideways scroll at {name}", None if wide <= room and inner == width else f"{wide} of {room}, {inner}"
    grounds = {}
    for scheme in ("light", "dark"):
        emulate(page.browser, 1280, 1, scheme)
        for turn in (0, 18, 19):
            page.browser.execute_script("toTurn(arguments[0])", turn)
            count, low = page.browser.execute_script(CONTRAST)
            yield (f"contrast in {scheme} at turn {turn}",
                   None if count > 80 and page.turn() == turn and not low else f"{count}, {low[:5]}")
        grounds[scheme] = page.browser.execute_script("return [getComputedStyle(document.body).backgroundColor, "
                                                      "getComputedStyle(document.body).color, colour('--commits')]")
    yield ("its colours in the dark",
           None if grounds == {"light": ["rgb(255, 255, 255)", "rgb(28, 28, 28)", "#7fb7d9"],
                               "dark": ["rgb(22, 25, 29)", "rgb(232, 234, 237)", "#2f6f96"]} else f"{grounds}")
    drawn = page.browser.execute_script("return [...element('drawn').getContext('2d').getImageData(MARGIN + 45, 6, 1, "
                                        "1).data.slice(0, 3)]")
    yield "its lanes in the dark", None if drawn == [0x2F, 0x6F, 0x96] else f"{drawn}"
    page.browser.execute_cdp_cmd("Emulation.clearDeviceMetricsOverride", {})


def without_script(browser: Browser, path: Path) -> Iterator[Check]:
    """What stands there without JavaScript."""
    browser.execute_cdp_cmd("Emulation.setScriptExecutionDisabled", {"value": True})
    page = Page(browser, path)
    told = page.browser.find_element(page.by.TAG_NAME, "body").text
    browser.execute_cdp_cmd("Emulation.setScriptExecutionDisabled", {"value": False})
    wanted = ["A histogram: epoch e adds 1 to the bin that its sample names.",
              "This page shows its run by JavaScript, which is off here."]
    yield ("without JavaScript", None if all(text in told
                                            for text in wanted) and "rollback" not in told and "Code" not in told
           else told)


def for_everyone(views: "Views") -> Iterator[Check]:
    """The page of a trace, as it is read in all these ways; and one with the lines of its source."""
    traced = (ROOT / "examples" / "traces" / "histogram.trace").read_text()
    steps = views.programs.steps(traced, "caches", None)
    page, _ = views.page(traced)
    yield from named_parts(page)
    yield from keyboard(page, steps)
    page.browser.execute_script("toTurn(18)")
    yield from sizes(page)
    yield "for everyone: no errors in the browser", first_of(page.errors())
    yield from without_script(views.browser, views.folder / f"{views.made}.html")
    page, _ = views.page(views.evenly(example("own_counters"), "caches", 4), "--cores", "4")
    told = [row.text for row in page.browser.find_elements(page.by.CSS_SELECTOR, "#code tr")]
    wanted = dict(re.findall(r"^# code (\w{8}) (\S+)$", example("own_counters"), re.MULTILINE))
    rows = [row for row in told[1:] if wanted.get(row[:8], "?") in row]
    yield ("the source's lines beside the code",
           None if told[0] == "address instruction source next of" and len(wanted) > 1 and len(rows) == len(wanted)
           else f"{told}")
    page, _ = views.page(views.evenly(example("first_match"), "caches", 4), "--cores", "4")
    told = lanes_as_text(page)
    yield ("lanes of a loop with an exit, as text",
           None if any(row.endswith(" is cancelled") for row in told) and any(row.endswith(" commits") for row in told)
           else f"{told}")
    emulate(views.browser, 400)
    wide, room = page.browser.execute_script("return [document.documentElement.scrollWidth, "
                                             "document.documentElement.clientWidth]")
    yield "no sideways scroll of another run", None if wide <= room else f"{wide} of {room}"
    views.browser.execute_cdp_cmd("Emulation.clearDeviceMetricsOverride", {})


# --- The checks -----------------------------------------------------------------------

class Views:
    """Makes pages of inputs, by the programs of a folder."""

    def __init__(self, browser: Browser, folder: str, programs: Programs) -> None:
        self.browser, self.folder, self.programs, self.made = browser, Path(folder), programs, 0

    def view(self, text: str, *words: str) -> tuple[str, str, int]:
        """Standard output, the error stream and the status."""
        done = called_bytes([sys.executable, ROOT / "tools" / "view", *words], text.encode("latin-1"),
                            env={**os.environ, "LOOPS_PROGRAMS": str(self.programs.folder)})
        return done.stdout.decode("utf-8"), done.stderr.decode("latin-1"), done.returncode

    def page(self, text: str, *words: str, link: str = "") -> tuple[Page, str]:
        """The page in the browser, and the file that it stands in."""
        out, errors, status = self.view(text, *words)
        if errors or status:
            raise AssertionError(f"no page: {errors!r}, status {status}")
        self.made += 1
        path = self.folder / f"{self.made}.html"
        path.write_text(out, encoding="utf-8")
        return Page(self.browser, path, link), out

    def evenly(self, text: str, store: str, cores: int) -> str:
        """An image with the turns at even speed."""
        return text + " ".join(["turns", *map(str, there(self.programs.even(text, store, cores).turns))]) + "\n"


class Whole(NamedTuple):
    """A run that is looked at whole: its name, its text, over which store and on how many cores, where the text doesn't
    say it; and whether buttons, keys and lanes are tried."""
    name: str
    text: str
    store: str
    cores: int | None
    is_moved: bool


class Sought(NamedTuple):
    """Something to be found: its name, the text and on how many cores, the key by which it is found, the words that the
    page has for it, and whether a turn is it."""
    name: str
    text: str
    cores: int
    key: str | None
    words: str
    holds: Callable[[Step], bool]


def runs(views: Views) -> Iterator[Check]:
    """Whole runs: a trace, and turns over both stores."""
    traced = (ROOT / "examples" / "traces" / "histogram.trace").read_text()
    inputs = [Whole("a histogram's trace", traced, "caches", None, True),
              Whole("wide lines", views.evenly(example("wide_lines"), "caches", 3), "caches", 3, False),
              Whole("a histogram over the plain store", views.evenly(example("histogram"), "plain", 2), "plain", 2,
                    False)]
    inputs += [Whole(f"a histogram over {word}", views.evenly(example("histogram"), word, 3), word, 3, False)
               for word in ("caches:line=64,sets=1,ways=3,buffer=1", "caches:sets=64,ways=4,buffer=16")]
    for name, text, store, cores, is_moved in inputs:
        steps = views.programs.steps(text, store, cores)
        page, out = views.page(text, "--store", store, *([] if cores is None else ["--cores", str(cores)]))
        yield f"{name}: alone", None if not re.search(r"(?:src|href)=(?!\"data:,\")|https?:|@import|url\(",
                                                      out) else "names something outside"
        for shows, wrong in [*whole_run(page, steps), *(moves(page, steps) if is_moved else ())]:
            yield f"{name}: {shows}", wrong
        yield f"{name}: no errors in the browser", first_of(page.errors())
        lines = len(page.browser.find_elements(page.by.CSS_SELECTOR, "#core-0 .cache td"))
        yield (f"{name}: all lines of small caches",
               None if lines == {"caches": 8, "plain": 0}.get(store, 3) or "sets=64" in store and lines < 20
               else f"{lines}")
        yield (f"{name}: its store",
               None if store in page.text("of") or store == "plain" and "the plain store" in page.text("of")
               else page.text("of"))


def first_turn(steps: Steps, holds: Callable[[Step], bool]) -> int | None:
    return next((step.turn for step in steps.steps if holds(step)), None)


def found(views: Views) -> Iterator[Check]:
    """What a person looks for, found by keys; `replay steps` says where it is."""
    inputs = [Sought("a full set", views.evenly(example("queens"), "caches", 2), 2, "w",
                     "all ways of the set hold lines", lambda step: step.answer == "again NoWay"),
              Sought("a full buffer", image(LOADS_FIRST) + f"turns {FIVE_LINES}\n", 2, "w",
                     "its buffer, which is full", lambda step: step.answer == "again OrbFull"),
              Sought("a full buffer of another core", image(STORES_FIRST) + f"turns {FIVE_LINES}\n", 2, "w",
                     "whose buffer has no place", lambda step: step.answer == "again OrbBusy"),
              Sought("false sharing", views.evenly(example("own_counters"), "caches", 4), 4, "r", "false sharing",
                     lambda step: any(entry.what == "hurt" for entry in step.entries)),
              Sought("an exit with a cancel", views.evenly(example("first_match"), "caches", 4), 4, None,
                     "is cancelled; its exit ends the loop",
                     lambda step: any(entry.what == "cancel" for entry in step.entries))]
    for name, text, cores, key, words, holds in inputs:
        steps = views.programs.steps(text, "caches", cores)
        page, _ = views.page(text, "--cores", str(cores))
        turn, wanted = page.press_until(key or page.keys.ARROW_RIGHT, words), first_turn(steps, holds)
        yield (f"{name}, found by stepping",
               None if turn is not None and turn == wanted else f"turn {turn}, and not {wanted}: {page.text('said')}")
        if name.startswith("a full buffer"):
            core = 1 if name == "a full buffer" else 0
            told = page.text(f"core-{core}")
            yield (f"{name}: its lines",
                   None if "buffer, 4 of 4 lines: 00000040; 00000050; 00000060; 00000070" in told else told)
        yield f"{name}: no errors in the browser", first_of(page.errors())


def windows(views: Views) -> Iterator[Check]:
    """Parts of runs, and what is refused."""
    text = views.evenly(example("histogram"), "caches", 2)
    steps = views.programs.steps(text, "caches", 2)
    states = printed(steps)
    page, _ = views.page(text, "--cores", "2", "--from", "20", "--to", "39", link="#turn=25")
    told = [page.turn(), page.text("cut")]
    yield "a window", None if told == [25,
                                       f"Turns 20 to 39 of {len(states)} are on this page: --from and --to of "
                                       "tools/view choose others."] else f"{told}"
    yield "a window's state", first_of(differences(page.shown(), states[25], steps.steps[25], states[24]))
    page.press(page.keys.HOME)
    yield "a window's first turn", None if page.turn() == 20 else f"{page.turn()}"
    page.press(page.keys.END)
    yield "a window's last turn", None if page.turn() == 39 else f"{page.turn()}"
    long = views.evenly(image(SHORT, 1300), "caches", 2)
    page, _ = views.page(long, "--cores", "2", link="#turn=30000")
    count = long.rpartition("turns ")[2].count(" ") + 1
    told = [page.turn(), page.text("cut")]
    yield ("a long run", None if count > 10_000
           and told == [9999,
                        f"Turns 0 to 9,999 of {count:,} are on this page: --from and --to of tools/view choose others."]
           else f"{told}, {count}")
    yield "windows: no errors in the browser", first_of(page.errors())
    for name, wrong, words, answer in (("an image", "size 7\n", ["--cores", "2"], ("", "image 1 Range\n", 2)),
                                       ("no cores", text, list[str](), ("", "usage\n", 2))):
        got = views.view(wrong, *words)
        yield f"refused: {name}", None if got == answer else f"{got}"


def in_browser(folder: str, command: list[str]) -> Iterator[Check]:
    """The checks that need programs and a browser."""
    found_there = {name: beside(command, name) for name in ("why", "replay")}
    programs = {name: path for name, path in found_there.items() if path and path.is_file()}
    if len(programs) < 2:
        left_out("pages", "why and replay weren't built beside the program that is tested")
        return
    for name, path in programs.items():
        Path(folder, name).symlink_to(path)
    browser = driver()
    if browser is None:
        left_out("pages", "chromium, chromium-driver and python3-selenium aren't all installed")
        return
    try:
        views = Views(browser, folder, Programs(Path(folder)))
        for part in (runs, found, windows, for_everyone):
            yield from part(views)
    finally:
        browser.quit()


def main() -> int:
    find_selenium()
    script = Script()
    with tempfile.TemporaryDirectory() as folder:
        script.run(disassembly, forms, partial(in_browser, folder, script.command()))
    return script.ended()


if __name__ == "__main__":
    sys.exit(main())
