#!/usr/bin/env python3
"""Tests the pages of plans/explore.py in a real browser: keys, clicks, the slider, links, play, undo, choosing the CPU of a step. tests/look.py calls it.

    tests/look_browser.py [FOLDER]      puts pictures of the pages into FOLDER, if it is given

It needs a Chromium (tests/browser.py), and says so if there is none. The last line is 'look_browser: N passed, M failed'.
"""
import subprocess
import sys
import tempfile
import time
from pathlib import Path

from browser import Browser, find_browser

ROOT = Path(__file__).resolve().parent.parent
PAGES = {
    "run": ["plans/two-receivers.toml"],
    "all": ["plans/woken-from-afar.toml", "--all"],
    "broken": ["plans/receives-twice.toml", "--wrong", "pend-keeps-the-hand"],
    "lost": ["plans/two-receivers.toml", "0*13,1*13,2*43,1*6,0*23", "--wrong", "other-side-only"],
    "lock": ["plans/two-senders.toml", "--wrong", "look-always-hits", "--all"],
}
# At each step each thread is one filled chip among CPUs and buffers, and no word is missing; the first steps where that is not so.
ONE_CHIP = """(() => { const wrong = []; for (let k = 0; k <= run.length; k++) { go(k); const count = {};
  document.querySelectorAll('#cpus .t:not(.only), #buffers .t:not(.only)').forEach(chip => count[chip.textContent] = (count[chip.textContent] || 0) + 1);
  record.threads.forEach((_, t) => { if (count['t' + t] !== 1) wrong.push([k, t, count['t' + t] || 0]); });
  if (/undefined|NaN|\\[object/.test(document.body.innerText)) wrong.push([k, 'text']); } return wrong.slice(0, 5); })()"""
# The lowest edge of cards and lanes over all steps.
LOWEST = """(() => { let low = 0;
  for (let k = 0; k <= run.length; k++) { go(k); low = Math.max(low, document.querySelector('main').getBoundingClientRect().bottom); }
  return low; })()"""
# Controls without a name for a screen reader.
NAMELESS = """[...document.querySelectorAll('button, input, select, textarea, [role=img], [role=radiogroup]')]
  .filter(one => !(one.getAttribute('aria-label') || one.textContent.trim() || one.labels && [...one.labels].some(label => label.textContent.trim())))
  .map(one => one.outerHTML.slice(0, 80))"""


class Checks:
    """A browser, and what was tried in it."""

    def __init__(self, browser, room):
        self.browser, self.room, self.count, self.failed = browser, room, 0, 0

    def holds(self, what, came, wanted):
        self.count += 1
        if came != wanted:
            self.failed += 1
            print(f"look_browser: {what}: got {came!r}, expected {wanted!r}")

    def open(self, page, link=""):
        self.browser.open(f"file://{self.room}/{page}.html{link}")

    def at(self):
        return self.browser.read("[at, run.length]")

    def said(self):
        return self.browser.read("document.querySelector('#said').innerText.replace(/\\s+/g, ' ')")


def make_pages(room):
    for name, words in PAGES.items():
        with open(room / f"{name}.html", "w", encoding="utf-8") as page:
            subprocess.run([sys.executable, "plans/explore.py", *words], cwd=ROOT, stdout=page, check=True)


def keys(checks):
    """Keys of a page of a run."""
    browser = checks.browser
    checks.open("run")
    checks.holds("it opens before the first step", checks.at(), [0, 118])
    presses = [("ArrowRight", 1), ("ArrowRight", 2), ("ArrowLeft", 1), ("End", 118), ("ArrowRight", 118), ("Home", 0), ("ArrowLeft", 0), ("PageDown", 37),
               ("PageDown", 59), ("PageUp", 37)]
    for key, step in presses:
        browser.key(key)
        checks.holds(f"{key} goes to step {step}", checks.at(), [step, 118])
    browser.key("ArrowRight", shift=True)
    checks.holds("shift and right goes on by a section", checks.at(), [40, 118])


def buttons(checks):
    """Buttons, strides and the slider."""
    browser = checks.browser
    checks.open("run", "#step=40")
    for selector, step in (("#on", 41), ("#back", 40), ("#first", 0), ("#last", 118)):
        browser.click(selector)
        checks.holds(f"a click on {selector}", checks.at(), [step, 118])
    browser.click("input[value=section]")
    for selector in ("#first", "#on", "#on"):
        browser.click(selector)
    checks.holds("by sections: the switch, then the end of AcqQ", checks.at(), [4, 118])
    browser.click("input[value=section]")
    browser.key("ArrowRight")
    stride = browser.read("document.querySelector('input[name=by]:checked').value")
    checks.holds("an arrow behind a click on a stride goes by it", [checks.at(), stride], [[7, 118], "section"])
    browser.key("ArrowDown")
    checks.holds("an arrow down takes the next stride", browser.read("document.querySelector('input[name=by]:checked').value"), "effect")
    browser.click("input[value=step]")
    browser.read("element('slide').value = 60; element('slide').oninput({target: element('slide')})")
    checks.holds("the slider", checks.at(), [60, 118])
    browser.read("element('slide').focus()")
    browser.key("ArrowRight")
    checks.holds("an arrow while the slider has the focus is one step", checks.at(), [61, 118])


def links(checks):
    """Links into a run."""
    browser = checks.browser
    checks.holds("the link has the step", browser.read("location.hash"), "#step=61")
    browser.read("location.hash = '#step=37'")
    browser.wait("at === 37")
    for link, step in (("#step=85", 85), ("#step=99999", 118), ("#step=<script>", 0), ("#step=-3", 0)):
        checks.open("run", link)
        checks.holds(f"the link {link}", checks.at(), [step, 118])
    checks.open("run", "#step=85")
    checks.holds("it says what happened", checks.said(),
                 "CPU 0 TryTake thread 0 receives 7 from buffer 0 takes effect: edits the block and leaves the spin lock of buffer 0, in one step")


def clicks(checks):
    """Clicks into the lanes and on an effect, and playing."""
    browser = checks.browser
    checks.open("run")
    x, y = browser.read("(() => { const box = document.querySelector('#lanes svg').getBoundingClientRect(); return [box.x, box.y]; })()")
    browser.click_at(x + 78 + 15 * 10 + 7, y + 30)
    checks.holds("a click into the lanes", checks.at(), [11, 118])
    browser.click("#order button[data-go]")
    checks.holds("a click on an effect", checks.at(), [37, 118])
    browser.read("document.activeElement.blur()")
    browser.key(" ")
    browser.wait("at >= 39")
    browser.key(" ")
    stopped = checks.at()
    time.sleep(1.2)
    checks.holds("space plays, and stops", checks.at(), stopped)


def chips(checks):
    """One filled chip a thread, and two of them where a broken kernel has a thread in two places."""
    browser = checks.browser
    checks.open("run")
    checks.holds("each thread is one filled chip at each step", browser.read(ONE_CHIP), [])
    checks.open("broken")
    checks.holds("with the mistake a thread is two chips from step 30 on", browser.read(ONE_CHIP)[0], [30, 0, 2])
    checks.holds("it is said that this is not the proved kernel", browser.read("element('warn').textContent")[:67],
                 "NOT the proved kernel: here who is sent home stays in the hand as w")
    checks.open("lost", "#step=98")
    checks.holds("the lost wake-up is said", browser.read("document.querySelector('li.broken').textContent"),
                 "✘ BROKEN: no lost wake-up: buffer 0 holds 8, is free, and t1, first in its receive line, sleeps")


def looks(checks):
    """What stands in 1280 by 720; names for a screen reader; nothing goes out."""
    browser = checks.browser
    for page in ("run", "all", "lost"):
        checks.open(page)
        checks.holds(f"{page}: controls without a name", browser.read(NAMELESS), [])
        checks.holds(f"{page}: the page has a language and a title", browser.read("document.documentElement.lang + ' ' + !!document.title"), "en true")
    tools = browser.read("(() => { element('tools').hidden = false; return element('tools').offsetHeight; })()")  # of a page of all states
    checks.open("run")
    low = browser.read(LOWEST) - browser.read("element('warn').offsetHeight") + tools
    checks.holds(f"three CPUs, three threads and a buffer stand above 720, also below the row of tools ({low:.0f})", low <= 720, True)
    checks.holds("nothing is wider than the page", browser.read("document.documentElement.scrollWidth <= innerWidth"), True)


def choosing(checks):
    """A page of all states: the reader chooses who steps."""
    browser = checks.browser
    checks.open("all")
    checks.holds("it starts with the plan's schedule, at its start", checks.at(), [0, 57])
    browser.key("1")
    checks.holds("a digit steps its CPU and drops what stood behind", [checks.at(), browser.read("location.hash")], [[1, 1], "#schedule=1&step=1"])
    for key in "11100":
        browser.key(key)
    checks.holds("CPU 0 takes a ticket", checks.said(), "CPU 0 AcqQ takes ticket 1 at the spin lock of buffer 0 to ask for the buffer")
    browser.key("0")
    checks.holds("and looks in vain", checks.said(), "CPU 0 AcqQ looks in vain: CPU 1 comes first at the spin lock of buffer 0")
    browser.key("Backspace")
    checks.holds("Backspace takes it back", checks.at(), [6, 6])
    browser.click("#undo")
    checks.holds("undo", checks.at(), [5, 5])
    browser.click("[data-step='0']")
    checks.holds("a click steps CPU 0", [checks.at(), browser.read("spelling()")], [[6, 6], "1*4,0*2"])
    browser.key("1", shift=True)
    checks.holds("shift and a digit run a CPU until it blocks",
                 browser.read("[isBlocked(run.length, 1), run.step(run.length).cpu, wordsOf(run, run.length).first]"),
                 [True, 1, "looks in vain: CPU 0 comes first"])
    browser.key("r")
    checks.holds("at random each thread is one filled chip at each step", browser.read(ONE_CHIP), [])
    browser.read("(() => { const ends = element('ends'); ends.selectedIndex = 1; ends.dispatchEvent(new Event('change')); })()")
    checks.holds("to an end of the list", browser.read("[run.cell('quiet', at), spelling()]"), [True, "1*21,0*20"])


def chosen_links(checks):
    """Links with a schedule, and breaking a law by hand."""
    browser = checks.browser
    checks.open("all", "#schedule=0*13,1*24&step=30")
    checks.holds("a link with a schedule", [checks.at(), checks.said()[:53]], [[30, 37], "CPU 1 Pend thread 0 goes home: it is pending at CPU 0"])
    checks.open("all", "#schedule=0*13,7*24&step=30")
    told = browser.read("element('told').textContent")
    checks.holds("a link with a CPU that is none", [checks.at(), told], [[13, 13], "the schedule names a CPU that the plan has not"])
    checks.open("lock", "#schedule=")
    for key in "00001111":
        browser.key(key)
    checks.holds("lesson 1's kernel is broken in eight steps", browser.read("document.querySelector('li.broken').textContent"),
                 "✘ BROKEN: one CPU inside a lock: CPU 0 and CPU 1 are inside the spin lock of buffer 0")
    browser.read("element('told').textContent = ''")
    browser.key("c")
    browser.wait("element('told').textContent !== ''")
    checks.holds("c tells the schedule", browser.read("element('told').textContent").removeprefix("copied: "), "--schedule '0*4,1*4'")


def policy(checks):
    """The page's own policy: a text of markup does nothing, and a script that is put in does not run."""
    browser = checks.browser
    checks.holds("no request goes out", browser.requests(), [])
    checks.holds("no fault in a page", [str(fault)[:300] for fault in browser.faults()], [])
    checks.open("run")
    browser.read("document.body.append(Object.assign(document.createElement('script'), {textContent: 'window.foreign = 1'}))")
    checks.holds("a script that is put into the page does not run", browser.read("window.foreign ?? null"), None)
    came = browser.read("fetch('https://example.org/').then(() => 'came', () => 'refused')")
    checks.holds("the page's policy refuses a request", came, "refused")


def pictures(checks, folder):
    """Pictures of the pages, to be looked at."""
    for page, link in (("run", "#step=85"), ("all", "#schedule=0*13,1*24&step=30"), ("lost", "#step=98")):
        checks.open(page, link)
        checks.browser.picture(Path(folder) / f"{page}.png")


def main(folders):
    if "--help" in folders:
        print(__doc__)
        return 0
    program = find_browser()
    if not program:
        print("look_browser: no page was tested in a browser: there is no Chromium here")
        return 0
    with tempfile.TemporaryDirectory() as room:
        make_pages(Path(room))
        browser = Browser(program)
        try:
            checks = Checks(browser, room)
            for part in (keys, buttons, links, clicks, chips, looks, choosing, chosen_links, policy):
                part(checks)
            for folder in folders:
                pictures(checks, folder)
        finally:
            browser.close()
    print(f"look_browser: {checks.count - checks.failed} passed, {checks.failed} failed")
    return 1 if checks.failed else 0


if __name__ == "__main__":
    sys.exit(main(sys.argv[1:]))
