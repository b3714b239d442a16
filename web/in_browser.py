#!/usr/bin/env python3
"""Drives web/tower.html in a Chromium and in a Firefox, where there is one: keys, clicks, links, play, undo, plans and texts that are typed in and refused,
lessons, searches, the page's policy; on a phone, in a lecture hall, in the dark, and by its contrast.

    web/in_browser.py [PAGE [PICTURES]]

Where neither is here (tests/browser.py says how they are found) it says so, and its status is 77: web/test.mjs has judged the program in the page. With a
folder PICTURES it leaves a Chromium's pictures there. The last line counts; the status is 1 if anything is not as it should be.
"""
import re
import sys
import tempfile
from pathlib import Path

ROOT = Path(__file__).resolve().parent.parent
sys.path.append(str(ROOT / "tests"))
from browser import Browser, Firefox, find_browser, find_firefox  # noqa: E402

WIDE, HIGH = 1280, 720
PHONE, HALL = (390, 844, 2), (853, 480, 1.5)  # a lecture hall: 1280 by 720, at 150 %
LEAST_CONTRAST = 4.5
LOST = "#plan=two-receivers&wrong=other-side-only&schedule=0*13,1*13,2*43,1*6,0*23&step=91"
PANELS = ("planPanel", "searchPanel", "lawPanel", "printedPanel", "judgePanel", "aboutPanel")
MOST_RUN_MS, MOST_STEP_MS = 5, 50
OWN_PLAN = 'cpus = 1\\ntrace = 4\\nbuffers = [2]\\n[[thread]]\\ncpu = 0\\nprogram = ["set r0 7", "send 0 r0"]\\n'

LOOPS = ('cpus = 2\\ntrace = 4\\nbuffers = [1]\\n[[thread]]\\ncpu = 0\\nprogram = ["set r0 7", "send 0 r0", "jnz r0 1"]\\n'
         '[[thread]]\\ncpu = 1\\nprogram = ["set r1 1", "recv 0 r0", "jnz r1 1"]\\n')

# Whether each beginning of the run is compared with the program: until then what is said of it may move what stands beneath.
STILL = "!window.page || page.session.evidence.counted === page.session.record.printed.length"
SECTIONS = ("AcqQ", "Enter", "Shut", "TryPut", "TryTake", "Wait", "SigRecv", "SigSend", "RelQ", "Pend", "Drain")

# In each of the stored plans, at each step: each thread is one filled chip among CPUs and buffers, and no text came from a value that is none.
CHIPS = """(() => { const wrong = []; for (const name of Object.keys(page.plans)) { if (!page.loadStored(name)) wrong.push([name, 'refused']);
  const stride = Math.ceil(page.run.length / 40);
  for (let step = 0; step <= page.run.length; step += stride) { page.go(step); const count = {};
    document.querySelectorAll('#cpus .t:not(.only), #buffers .t:not(.only)').forEach(chip => { count[chip.textContent] = (count[chip.textContent] ?? 0) + 1; });
    page.run.record.threads.forEach((_, t) => { if (count['t' + t] !== 1) wrong.push([name, step, t]); });
    if (/undefined|NaN|\\[object/.test(document.body.innerText)) wrong.push([name, step, 'text']); } }
  return wrong.slice(0, 5); })()"""

# What a run of each stored plan takes in a new instance, in milliseconds: of the plan that takes longest, the fastest of 20, since the machine may be busy.
RUN_TIMES = """(() => { let slowest = ['', 0];
  for (const [name, plan] of Object.entries(page.plans)) { const schedule = scheduleIn(plan); let fastest = Infinity;
  for (let i = 0; i < 20; i++) { const start = performance.now(); page.program.runPlan(plan, schedule);
    fastest = Math.min(fastest, performance.now() - start); }
  if (fastest > slowest[1]) slowest = [name, fastest]; } return slowest; })()"""

# Each step of a run of more than 1,000, forth and then back, as the arrow keys go, in milliseconds: the median, and the mean.
STEP_TIMES = """(() => { page.loadStored('ledger'); const times = [];
  const timed = act => { const start = performance.now(); act(); document.body.getBoundingClientRect(); times.push(performance.now() - start); };
  while (page.at < page.run.length) timed(() => page.player.move(1)); while (page.at > 0) timed(() => page.player.move(-1));
  times.sort((x, y) => x - y); return [times.length, times[times.length >> 1], times.reduce((sum, one) => sum + one, 0) / times.length]; })()"""

# Texts that are seen with too little contrast, each with its own. Behind a text of the lanes is the bar that was drawn last beneath it, at three of its points.
CONTRAST = """(() => { const dark = document.createElement('canvas').getContext('2d', {willReadFrequently: true});
  const rgba = colour => { dark.clearRect(0, 0, 1, 1); dark.fillStyle = colour; dark.fillRect(0, 0, 1, 1); return [...dark.getImageData(0, 0, 1, 1).data]; };
  const linear = part => part / 255 <= 0.04045 ? part / 255 / 12.92 : ((part / 255 + 0.055) / 1.055) ** 2.4;
  const light = colour => rgba(colour).slice(0, 3).reduce((sum, part, i) => sum + [0.2126, 0.7152, 0.0722][i] * linear(part), 0);
  const ratio = (x, y) => { const [low, high] = [light(x), light(y)].sort((one, other) => one - other); return (high + 0.05) / (low + 0.05); };
  const behind = element => { for (let one = element; one; one = one.parentElement) { const back = getComputedStyle(one).backgroundColor;
    if (rgba(back)[3] > 250) return back; } return '#fff'; };
  const beneath = (text, x) => { const y = text.getBoundingClientRect().y + text.getBoundingClientRect().height / 2;
    const bars = [...text.ownerSVGElement.querySelectorAll('rect:not(.cursor)')].filter(bar => { const box = bar.getBoundingClientRect();
      return bar.compareDocumentPosition(text) & Node.DOCUMENT_POSITION_FOLLOWING && box.left <= x && x <= box.right && box.top <= y && y <= box.bottom; });
    return bars.length ? getComputedStyle(bars.at(-1)).fill : behind(text.ownerSVGElement); };
  const poor = [], hold = (words, ink, back) => { const is = ratio(ink, back);
    if (is < LEAST) poor.push([words.trim().slice(0, 30), Math.round(is * 100) / 100]); };
  const texts = document.createTreeWalker(document.body, NodeFilter.SHOW_TEXT);
  for (let node = texts.nextNode(); node; node = texts.nextNode()) { const one = node.parentElement;
    if (!node.data.trim() || one.closest('script, style, noscript, title, option, textarea, .unseen') || !one.checkVisibility()) continue;
    if (one.tagName !== 'text') { hold(node.data, getComputedStyle(one).color, behind(one)); continue; }
    const box = one.getBoundingClientRect();
    for (const x of [box.left + 1, box.left + box.width / 2, box.right - 1]) hold(node.data, getComputedStyle(one).fill, beneath(one, x)); }
  for (const one of document.querySelectorAll('input:not([type=range], [type=radio]), select, textarea'))
    if (one.checkVisibility()) hold(one.id, getComputedStyle(one).color, behind(one));
  return [...new Map(poor.map(one => [one.join(), one])).values()].slice(0, 8); })()""".replace("LEAST", str(LEAST_CONTRAST))

# What of a page the policy has to forbid: an image from elsewhere, a script that is put in, a style attribute, a text that is run. A breach is told a little
# later; one that is not told within a minute was none.
FORBIDDEN = ["connect-src", "eval", "img-src", "script-src", "script-src-elem", "style-src-attr"]
BREACHES = """(async () => { const seen = []; document.addEventListener('securitypolicyviolation', event => seen.push(event.effectiveDirective));
  document.body.insertAdjacentHTML('beforeend', '<img src="http://127.0.0.1:9/x.png"><p id="styled" style="color: red">x</p>');
  const script = document.createElement('script'); script.textContent = 'window.ran = 1'; document.body.append(script);
  try { await fetch('http://127.0.0.1:9/'); seen.push('fetched'); } catch {}
  setTimeout(() => { try { eval('window.ran = 2'); } catch { seen.push('eval'); } });
  const all = () => [...new Set(seen)].sort(), pause = ms => new Promise(done => setTimeout(done, ms));
  for (let turns = 0; turns < 600 && all().length < MANY; turns++) await pause(100);
  await pause(300); return [window.ran ?? null, all()]; })()""".replace("MANY", str(len(FORBIDDEN)))


class Checks:
    """Counts what is as it should be, and tells what isn't."""

    def __init__(self, browser, page):
        self.browser, self.url, self.passed, self.failed = browser, page.resolve().as_uri(), 0, 0

    def holds(self, what, got, wanted):
        if got == wanted:
            self.passed += 1
        else:
            self.failed += 1
            print(f"in a {self.browser.name}: {what}: got {got!r}, wanted {wanted!r}")

    def open(self, link=""):
        self.browser.open(self.url + link)
        self.browser.wait("Boolean(window.page || document.querySelector('#warn').textContent)")

    def at(self):
        return self.browser.read("[page.at, page.run.length]")

    def click(self, selector):
        """Clicks into the middle of what a selector names, once the page stands still."""
        self.browser.wait(STILL, 240)
        self.browser.click(selector)

    def link(self):
        """The page's link, once it stands in the address."""
        self.browser.wait("location.hash === page.link()")
        return self.browser.read("location.hash")

    def text(self, selector):
        return self.browser.read(f"document.querySelector({selector!r}).innerText.replace(/\\s+/g, ' ').trim()")

    def keys(self, *keys):
        for key in keys:
            self.browser.key(key.removeprefix("shift "), key.startswith("shift "))

    def set_value(self, selector, value, event="change"):
        """Puts a value into a field as a reader does who leaves it then. The value stands in JavaScript's own quotes."""
        self.browser.read(f"(() => {{ const field = document.querySelector({selector!r}); field.value = {value}; "
                          f"field.dispatchEvent(new Event({event!r}, {{bubbles: true}})); }})()")

    # ---- what is looked at

    def steps(self):
        self.open()
        self.holds("it opens before the first step", self.at(), [0, 57])
        for keys, step, what in [(("ArrowRight", "ArrowRight"), 2, "two presses of the right arrow"), (("ArrowLeft",), 1, "the left arrow"),
                                 (("End", "ArrowRight"), 57, "the end"),
                                 (("Home", "ArrowLeft"), 0, "the start"), (("PageDown",), 24, "Page Down: the first effect"), (("PageDown",), 47, "the second"),
                                 (("PageUp",), 24, "Page Up"), (("shift ArrowRight",), 27, "shift and right: a section")]:
            self.keys(*keys)
            self.holds(what, self.at()[0], step)
        for button, step in [("#on", 28), ("#back", 27), ("#first", 0), ("#last", 57)]:
            self.click(button)
            self.holds(f"the button {button}", self.at()[0], step)
        self.click("input[value=section]")
        self.click("#first")
        self.keys("ArrowRight", "ArrowRight")
        self.holds("by sections: the switch, then AcqQ's third step", self.at()[0], 4)
        self.click("input[value=step]")
        self.set_value("#slide", 30, "input")
        self.holds("the slider", self.at()[0], 30)
        self.click("#order button[data-go]")
        self.holds("a click on an effect", self.at()[0], 24)
        self.holds("it says what happened", self.text("#said").startswith("CPU 1 TryPut thread 1 sends 7 to buffer 0 takes effect"), True)
        x, y = self.browser.read("(() => { const box = document.querySelector('#lanes svg').getBoundingClientRect(); return [box.x, box.y]; })()")
        each = self.browser.read("page.lanes.each")
        self.browser.click_at(x + 78 + 10.5 * each, y + 30)
        self.holds("a click into the lanes", self.at()[0], 11)

    def to_the_end(self):
        """woken-from-afar to its end, as a person with the file alone goes."""
        self.open()
        while self.at()[0] < 57:
            self.keys("ArrowRight")
        self.holds("at the end nobody goes on", "quiet: nobody goes on" in self.text("#order"), True)
        self.holds("and the proved program says so", "the proved program prints the same" in self.text("#evidence"), True)
        self.browser.wait("document.querySelector('#evidence').textContent.includes('58 of 58')")
        self.set_plan('cpus = 1\\ntrace = 4\\nbuffers = [1]\\n[[thread]]\\ncpu = 0\\nprogram = ["send 0 r0", "send 0 r0"]\\n')
        for steps, quiet in ((58, "quiet"), (60, "not quiet")):
            self.set_value("#schedule", f"'0*{steps}'")
            self.holds(f"a deadlock after {steps} steps", f"{quiet} deadlock: no thread can ever proceed" in self.text("#order"), True)
        self.browser.read("page.go(30)")
        self.holds("none before it", "deadlock" in self.text("#order"), False)

    def play(self):
        self.open("#step=3")
        self.browser.read("(() => { const { go } = page, set = window.setInterval; Object.assign(window, { played: 0, pauses: [] }); "
                          "page.go = step => { played++; go.call(page, step); }; "
                          "window.setInterval = (act, pause) => { pauses.push(pause); return set(act, pause); }; })()")
        self.keys(" ")
        self.browser.wait("played > 1")
        self.holds("space plays", self.browser.read("[document.querySelector('#play').textContent, page.at - played]"), ["stop", 3])
        self.keys(" ")
        step = self.at()[0]
        self.holds("and stops", [self.text("#play"), self.browser.read("page.player.timer")], ["play", None])
        self.set_value("#speed", "'10'")
        self.keys(" ")
        self.browser.wait(f"page.at >= {step + 5}")
        self.keys(" ")
        self.holds("a step is shown for 0.9 s, and at ten times the speed for 0.09 s", self.browser.read("pauses.slice(0, 2)"), [900, 90])

    def links(self):
        self.open("#step=24")
        self.keys("ArrowRight")
        self.holds("the link has the plan, the schedule and the step", self.link(), "#plan=woken-from-afar&schedule=0*13,1*24,0*20&step=25")
        for link, wanted in [("#plan=two-receivers&schedule=0*13,1*13&step=20", [20, 26]), ("#plan=two-senders&step=99999", [141, 141]),
                             ("#plan=<script>&step=<script>", [0, 57]),
                             ("#plan=two-receivers&wrong=other-side-only&schedule=0*3&step=1", [1, 3]), ("#step=-4", [0, 57]),
                             ("?plan=two-receivers&step=20", [20, 118])]:
            self.open(link)
            self.holds(f"the link {link}", self.at(), wanted)
        self.open("#plan=two-senders&step=99999")
        self.holds("a link with a step beyond the run", self.text("#refused"), "The link names step 99999 of a run of 141 steps.")
        self.open("#plan=woken-from-afar&schedule=0*13,7*2")
        self.holds("a link with a CPU that is none", self.text("#refused").startswith("error: BadCpu(4)"), True)
        for link, words in [("#plan=nowhere", "the plan nowhere"), ("#wrong=never-wrong", "the mistake never-wrong"), ("#rule=<b>", "the mistake <b>")]:
            self.open(link)
            self.holds(f"the link {link} says what it names in vain", self.text("#refused"), f"The link names {words}, which this page has not.")
        self.open("#plan=woken-from-afar&schedule=<img src=x>")
        self.holds("a schedule that is markup is text", "<img src=x>" in self.text("#refused"), True)

    def choose(self):
        self.open()
        self.keys("1")
        self.holds("digit 1 steps CPU 1, and drops what stood behind", [self.at(), self.link()], [[1, 1], "#plan=woken-from-afar&schedule=1&step=1"])
        self.keys("1", "1", "1", "0", "0")
        self.keys("0")
        self.holds("seven steps by hand", self.at(), [7, 7])
        self.keys("Backspace")
        self.holds("Backspace takes one back", self.at(), [6, 6])
        self.click("#undo")
        self.holds("the button too", self.at(), [5, 5])
        self.keys(*["Backspace"] * 5)
        self.holds("back to the plan's own schedule", self.at(), [0, 57])
        self.keys("shift 0")
        self.holds("shift and 0 runs CPU 0 until its thread sleeps", self.text("#said").startswith("CPU 0 Wait thread 0 joins those that wait"), True)
        self.click("#cpus [data-run-on='1']")
        self.holds("a CPU's own button", self.browser.read("spelledSchedule(page.session.steps)").startswith("0*13,1*"), True)
        self.click("#choices [data-choose='0']")
        self.keys("r")
        self.holds("random steps are drawn and compared", self.browser.read("page.session.evidence.at(page.at)"), True)

    def schedules(self):
        self.open()
        self.click("#schedule")
        self.browser.read("document.querySelector('#schedule').select()")
        self.browser.type("0*13,1*10")
        self.keys("Enter")
        self.browser.read("document.querySelector('#schedule').blur()")
        self.holds("a schedule that is typed in", self.at(), [23, 23])
        for value, error, words in [("'0*13,,1'", "error: BadSchedule(9)", "item 2"), ("'0,5'", "error: BadCpu(4)", "CPUs 0 to 1"),
                                    ("'0*13 1*24'", "error: BadSchedule(9)", "Here is white space"),
                                    ("'0*13;1'", "error: BadSchedule(9)", "A comma separates two items")]:
            self.set_value("#schedule", value)
            self.holds(f"the schedule {value} is refused", [self.text("#refused").startswith(error), words in self.text("#refused")], [True, True])
        self.set_value("#schedule", "'1*3'")
        self.holds("a good one behind it", [self.at(), self.text("#refused")], [[3, 3], ""])
        self.click("#undo")
        self.holds("is taken back", self.at(), [23, 23])

    def plans(self):
        self.open()
        self.click("[data-panel=planPanel]")
        self.set_value("#planText", "document.querySelector('#planText').value.replace('send 0', 'sned 0')")
        self.click("#runPlan")
        self.holds("a plan that is typed in is refused", self.text("#planRefused"),
                   "error: Guest(23) thread 1 line 1 UnknownWord(10) line 13: program = [\"set r0 7\", \"sned 0 r0\"] "
                   "an instruction begins with one of set, add, sub, jnz, send, sendm, recv, recvm, close, yield, exit; near it: send")
        self.set_value("#planText", "'cpus = 2\\n<script>window.ran = 1</script>'")
        self.click("#runPlan")
        is_shown = "<script>window.ran = 1</script>" in self.text("#planRefused")
        self.holds("a text with <script> is text", [is_shown, self.browser.read("window.ran ?? null")], [True, None])
        self.set_value("#planText", f"'{OWN_PLAN}'")
        self.click("#runPlan")
        shown = self.browser.read("[document.querySelector('#planPanel').open, document.querySelector('#plan').value]")
        self.holds("a plan of one's own is shown", shown, [False, "your own"])
        self.holds("it begins with a schedule in rounds", self.browser.read("spelledSchedule(page.session.steps)"), "0*21")
        self.keys("End")
        self.holds("and runs", [self.at(), self.browser.read("page.session.evidence.at(page.at)")], [[21, 21], True])
        link, at = self.link(), self.at()
        self.open(link)
        self.holds("its link has it whole", [self.at(), self.browser.read("page.session.text")], [at, OWN_PLAN.replace("\\n", "\n")])
        self.click("[data-panel=planPanel]")
        self.holds("keys and instructions stand beside the text", "cpus" in self.text("#planHelp") and "program" in self.text("#planHelp"), True)
        self.set_value("#planText", f"'\\ufefflocks = 1\\n{OWN_PLAN}'")
        self.click("#runPlan")
        self.holds("a key that is ignored gets a word, behind a byte order mark too", self.text("#ignored"),
                   "line 1 of the plan: the key locks is ignored. Is lock meant?")

    def judge(self):
        self.open("#step=57")
        self.click("[data-panel=printedPanel]")
        printed = self.text("#printed")
        self.holds("what was printed", "mctower run --schedule '0*13,1*24,0*20' < woken-from-afar" in printed and "quiet yes" in printed, True)
        self.click("#printedPanel [data-close]")
        self.click("[data-panel=judgePanel]")
        self.click("#judge")
        self.holds("the judge takes this run's text", self.text("#verdict").startswith("yes"), True)
        self.set_value("#traceText", "document.querySelector('#traceText').value.replace('recv 0 7', 'recv 0 8')")
        self.click("#judge")
        self.holds("and not a changed one", self.text("#verdict").startswith("no 5 WrongValue(36) line 5: e 0 0 recv 0 8 1 0"), True)

    def first_look(self):
        """What one sees before the first step."""
        self.open()
        first = "Threads on CPUs pass numbers through buffers Press → or next"
        self.holds("a sentence says what this is and what to press", self.text("#said").startswith(first), True)
        self.holds("the names of the sections are explained", [name for name in SECTIONS if name not in self.text("#foot")], [])
        self.holds("lessons have a list of their own", self.browser.read("document.querySelectorAll('#lessonList option').length"), 16)
        titles = "[...document.querySelectorAll('.laws:not(.own) li, .slots .t, .path span')].filter(one => !one.title).map(one => one.textContent)"
        self.browser.read("page.go(20)")
        self.holds("laws, sections and places say what they are where one points at them", self.browser.read(titles), [])
        self.browser.read("page.go(0)")
        self.browser.read("navigator.clipboard.writeText = text => { window.copied = text; return Promise.resolve(); }")
        self.click("#copyLink")
        self.browser.wait("window.copied")
        self.holds("copy link copies the link", self.browser.read("window.copied"), self.browser.read("location.href.split('#')[0] + page.link()"))

    def lesson(self, number):
        """Chooses a lesson and goes to where it breaks, if it does, once all beginnings are compared: what is said of them moves the page."""
        self.set_value("#lessonList", f"'{number}'")
        self.browser.wait(STILL)
        if self.browser.read(f"Boolean(page.lessons[{number}].breaks)"):
            self.click("#broken")

    def lessons(self):
        self.open()
        self.lesson(0)
        warning = "NOT the proved kernel: here a CPU enters a section without waiting for its turn"
        self.holds("lesson 1 says that it is no proved kernel", self.text("#warn").startswith(warning), True)
        why = "BROKEN: sent = received ++ left: buffer 0: sent [7], received [], left []: 7 lost"
        self.holds("its law breaks at its step, and it says why", [self.at()[0], why in self.text("#order")], [16, True])
        self.click("#empty")
        self.keys("0", "0", "0", "0", "1", "1", "1", "1")
        self.holds("eight steps by hand bring two CPUs into the lock", "BROKEN: one CPU inside a lock" in self.text("#order"), True)
        for number in self.browser.read("page.lessons.flatMap(({breaks}, i) => breaks ? [i] : [])"):
            self.lesson(number)
            law, step = self.browser.read(f"[page.lessons[{number}].breaks, page.lessons[{number}].step]")
            self.holds(f"lesson {number}: where it breaks", [self.at()[0], f"BROKEN: {law}" in self.text("#order")], [step, True])
        self.lesson(6)
        self.holds("lesson 7: the lost wake-up", ["BROKEN: no lost wake-up" in self.text("#order"), self.browser.read("page.run.cell('b0.owner', page.at)"),
                   self.browser.read("page.run.cell('b0.items', page.at)"), self.browser.read("page.run.place(1, page.at)")],
                   [True, None, ["8"], "WaitRecv(0)"])
        self.browser.wait("document.querySelector('#warn').textContent.includes('prints something else from step')")
        self.set_value("#wrong", "''")
        self.holds("without the mistake it stands", ["BROKEN" in self.text("#order"), self.text("#warn")], [False, ""])
        self.open("#lesson=12")
        self.holds("a link names a lesson of the proved kernel", [self.text("#lesson").startswith("Lesson 12. Native callers"), self.text("#warn")], [True, ""])
        self.holds("and what is shown has that link", "lesson=12" in self.link(), True)
        self.open("#lesson=99")
        self.holds("a lesson that is none", self.text("#refused"), "The link names the lesson 99, which this page has not.")

    def grades(self):
        """The step that a reader guesses is graded."""
        self.open("#plan=newcomer&wrong=release-frees-the-lock")
        for guess, words in [("5", "later"), ("59", "earlier"), ("x", "a step is a number"), ("25", "✔ right")]:
            self.set_value("#guess", f"'{guess}'")
            self.click("#grade")
            self.holds(f"the guess {guess}", self.text("#graded"), words)
        self.set_value("#schedule", "'0*3'")
        self.click("#grade")
        self.holds("a schedule that breaks nothing", self.text("#graded"), "this schedule does not break it")

    def beside(self):
        """The proved kernel's run above that of a kernel with a mistake; the step that differs first is marked; and both are saved as one picture."""
        self.open("#plan=newcomer&wrong=release-frees-the-lock")
        self.click("#besideButton")
        shown = self.browser.read("[document.querySelectorAll('#lanes svg').length, document.querySelectorAll('#lanes .differs').length]")
        self.holds("two runs, each with the mark", shown, [2, 2])
        words = "The proved kernel differs first in step 25 CPU 0 RelQ: thread 0 hands buffer 0 over to thread 1, now in CPU 0's hand, and below: "
        self.holds("it says what differs", self.text("#lanes").startswith(words), True)
        self.click("#lanes [data-go-to]")
        self.holds("its button goes there", self.at()[0], 25)
        self.holds("the link keeps both", "beside=1" in self.link(), True)
        self.browser.read("(() => { const make = URL.createObjectURL; "
                          "URL.createObjectURL = blob => { window.saved = blob.text(); return make.call(URL, blob); }; })()")
        self.click("[data-panel=printedPanel]")
        self.click("#savePicture")
        self.browser.wait("window.saved && window.saved.then(text => { window.picture = text; }) && window.picture")
        picture = self.browser.read("(() => { const drawn = new DOMParser().parseFromString(window.picture, 'image/svg+xml').documentElement; "
                                    "return [drawn.tagName, drawn.querySelectorAll('svg').length, "
                                    "[...drawn.querySelectorAll('.Running')].every(one => /^rgb/.test(one.getAttribute('fill')))]; })()")
        self.holds("the picture has both runs with their colours", picture, ["svg", 2, True])
        self.open("#plan=newcomer&wrong=release-frees-the-lock&beside=1&schedule=0*5")
        self.holds("two runs that are the same so far", "so far both runs are the same" in self.text("#lanes"), True)
        self.open("#step=27")
        self.holds("an arrow goes from the thread that wakes to the one that is woken",
                   self.browser.read("[...document.querySelectorAll('#lanes g title')].map(one => one.textContent)"), ["step 27: thread 1 wakes thread 0"])

    def laws(self):
        """A law of the reader's own: refused, looked up in each state, searched for, and kept in the link."""
        self.open("#plan=two-receivers&wrong=other-side-only&schedule=0*13,1*13,2*43,1*6,0*23")
        self.click("#order [data-panel=lawPanel]")
        for law, words in [("b0.holdz = 1", "“b0.holdz”: behind b0. stands one of holds"), ("b7.holds = 1", "“b7”: this plan has b0 to b0"),
                           ("b0.holds", "a condition is expected"),
                           ("t0.place = inside", "these are not compared"), ("(quiet", "“)” is expected"),
                           ("quiet; alert(1)", "“;” is no sign of a law"),
                           ("<img src=x> = 1", "a name or a number is expected")]:
            self.set_value("#lawText", repr(law))
            self.click("#takeLaw")
            self.holds(f"the law {law} is refused", [self.text("#lawRefused").startswith("this is no law"), words in self.text("#lawRefused")], [True, True])
        self.set_value("#lawText", "'not (b0.receive = 1 and t1.place = WaitRecv and b0.holds > 0 and b0.owner = none)'")
        self.click("#takeLaw")
        self.click("#order [data-go-to]")
        self.holds("it breaks where the lost wake-up is", [self.at()[0], "BROKEN: your law: not (b0.receive" in self.text("#order")], [91, True])
        link = self.link()
        self.open(link)
        self.holds("its link keeps it", self.browser.read("page.law.text").startswith("not (b0.receive"), True)
        self.click("[data-panel=searchPanel]")
        self.set_value("#wanted", "'own'")
        self.click("#search")
        self.browser.wait("document.querySelector('#found').textContent !== ''", 120)
        self.holds("a search breaks it", self.text("#found").startswith("A shortest schedule that breaks your law: 0*13,1*13,2*36,0*16 78 steps"), True)
        self.open("#law=b5.holds%20%3D%200")
        self.holds("a law in a link that is none of this plan", "this plan has b0 to b0" in self.text("#refused"), True)

    def targets(self):
        """What is pressed is at least 24 pixels high, and 44 where a finger presses it, also on a phone."""
        self.open(LOST)
        low = ("(least => [...document.querySelectorAll('button, select, #schedule, [role=radiogroup] label')].filter(one => one.checkVisibility() "
               "&& !one.closest('td') && one.getBoundingClientRect().height < least).map(one => one.id || one.textContent))")
        self.holds("targets of 24 pixels", self.browser.read(f"{low}(24)"), [])
        if not isinstance(self.browser, Browser):
            return
        self.browser.call("Emulation.setTouchEmulationEnabled", enabled=True)
        for size in ((WIDE, HIGH), PHONE):
            self.browser.resize(*size)
            self.holds(f"targets of 44 pixels for a finger, {size}", self.browser.read(f"{low}(44)"), [])
            self.holds("and nothing is wider than the page", self.browser.read("document.documentElement.scrollWidth <= innerWidth"), True)
        self.browser.call("Emulation.setTouchEmulationEnabled", enabled=False)
        self.browser.resize(WIDE, HIGH)

    def printed_beside(self):
        """In a lesson what is printed and judged is of the kernel that is shown, beside the proved one."""
        self.open("#plan=first-come&wrong=take-skips-the-turn&step=133")
        self.click("[data-panel=printedPanel]")
        printed = self.text("#printed")
        self.holds("both texts stand there", ["e 2 2 recv 0 7 1 1" in printed, "e 0 0 recv 0 7 1 0" in printed], [True, True])
        self.click("#printedPanel [data-close]")
        self.click("[data-panel=judgePanel]")
        self.click("#judge")
        self.holds("the judge reads the text of the kernel that is shown", self.text("#verdict").startswith("no 5 Pos(33)"), True)

    def set_plan(self, text):
        """Types a plan in, in JavaScript's own quotes, and runs it."""
        self.click("[data-panel=planPanel]")
        self.set_value("#planText", f"'{text}'")
        self.click("#runPlan")

    def searches(self):
        """A search: found and shown, none, stopped; and the page stays alive."""
        self.open("#plan=two-receivers&wrong=other-side-only")
        self.click("[data-panel=searchPanel]")
        self.click("#search")
        self.browser.wait("document.querySelector('#found').textContent !== ''", 120)
        self.holds("the shortest schedule", self.text("#found"), "A shortest schedule that breaks a law: 0*13,1*13,2*36,0*16 ✘ no lost wake-up: "
                   "buffer 0 holds 8, is free, and t1, first in its receive line, sleeps 78 steps, shortest by sections; 1,554 states were looked at.")
        self.click("#more")
        self.browser.wait("document.querySelector('#found').textContent.startsWith('Number 2')", 120)
        other = self.browser.read("page.finder.schedule")
        self.holds("the next is another", other != "0*13,1*13,2*36,0*16" and "no lost wake-up" in self.text("#found"), True)
        self.click("#showFound")
        self.holds("is shown", [self.at()[0] == self.at()[1], "BROKEN: no lost wake-up" in self.text("#order")], [True, True])
        self.open()
        for ways, count in [([], 85), (["bySections"], 419)]:
            self.click("[data-panel=searchPanel]")
            for way in ways:
                self.click(f"#{way}")
            self.click("#search")
            self.browser.wait("document.querySelector('#found').textContent !== ''", 120)
            self.holds("there is none", self.text("#found"),
                       f"All states seen: no schedule, however long, breaks a law. These are all {count} states that are reached.")
            self.click("#searchPanel [data-close]")
        self.set_plan(LOOPS)
        self.click("[data-panel=searchPanel]")
        self.set_value("#wanted", "'deadlock'")
        self.click("#search")
        self.browser.wait("document.querySelector('#found').textContent !== ''", 120)
        self.holds("two loops have no deadlock, however long they run", self.text("#found"), "All states seen: no schedule, however long, ends in a deadlock. "
                   "These are all 316 states that are reached (each CPU's trace has room without end).")
        self.open("#plan=ledger")  # with history it has no end but its limit
        self.click("[data-panel=searchPanel]")
        self.set_value("#wanted", "'deadlock'")
        self.click("#isEndless")
        self.click("#search")
        self.browser.wait("document.querySelector('#searched').textContent.includes('states that are known')")
        self.holds("while it searches the page answers", self.browser.read("page.run.length") > 0, True)
        self.holds("its bar says how far it is", self.browser.read("(one => 0 < one && one < 1)(document.querySelector('#progress').value)"), True)
        self.click("#stop")
        self.holds("it may be stopped", [self.text("#searched"), self.browser.read("page.finder.worker")], ["stopped", None])
        self.browser.read("page.finder.done({count: 3e6, depth: 40, isAll: false, isLimited: true, isEndless: false, bySections: true, steps: null, why: []}, "
                          "'deadlock')")
        self.holds("a search that met its limit says so", self.text("#found"), "The search met its limit of 256 MB: not all states were seen. "
                   "None that ends in a deadlock, in 3,000,000 states up to 40 sections away.")
        self.browser.read("delete window.Worker")
        self.click("#search")
        self.holds("a browser without workers", self.text("#searched").startswith("this browser starts no worker, which a search needs"), True)

    def sizes(self):
        """A phone, and a lecture hall: nothing is wider than the page, and the sentence and the lanes are seen."""
        self.browser.resize(*PHONE)
        for link in ("", "#plan=ledger&step=400", "#plan=two-receivers&wrong=other-side-only&step=91", "#plan=nowhere"):
            self.open(link)
            self.holds(f"{link} on a phone: as wide as the page", self.browser.read("document.documentElement.scrollWidth <= innerWidth"), True)
        for panel in PANELS:
            self.browser.read(f"page.openPanel('{panel}')")
            self.holds(f"{panel} on a phone", self.browser.read(f"document.querySelector('#{panel}').scrollWidth <= innerWidth"), True)
            self.browser.read(f"document.querySelector('#{panel}').close()")
        self.browser.resize(*HALL)
        for number in self.browser.read("page.lessons.flatMap((_, i) => [i])"):
            self.open()
            self.lesson(number)
            top, bottom, wide = self.browser.read("(() => { const box = id => document.querySelector(id).getBoundingClientRect(); "
                                                  "return [box('#said').top, box('#lanes').bottom, document.documentElement.scrollWidth]; })()")
            is_seen = [top >= 0, bottom <= HALL[1], wide <= HALL[0]]
            self.holds(f"lesson {number} at 150 %: sentence and lanes are seen, from {top} to {bottom}", is_seen, [True] * 3)
        self.browser.resize(WIDE, HIGH)

    def contrast(self):
        """Each text can be read: in runs, in a broken kernel, at a refusal, in each panel."""
        for link in ("", "#step=24", "#plan=two-receivers&step=85", LOST, f"{LOST}&beside=1&law=b0.holds%20%3D%200", "#plan=ledger&step=400",
                     "#plan=handed-over&step=40", "#schedule=0*13,7*2"):
            self.open(link)
            self.holds(f"contrast at {link}", self.browser.read(CONTRAST), [])
        for panel in PANELS:
            self.browser.read(f"page.openPanel('{panel}')")
            self.holds(f"contrast in {panel}", self.browser.read(CONTRAST), [])
            self.browser.read(f"document.querySelector('#{panel}').close()")

    def looks(self):
        self.holds("each thread is one filled chip in every plan", self.browser.read(CHIPS), [])
        self.open("#plan=two-receivers")
        highest = self.browser.read("(() => { let high = 0; for (let step = 0; step <= page.run.length; step += 3) { page.go(step); "
                                    "high = Math.max(high, document.querySelector('main').getBoundingClientRect().bottom); } return high; })()")
        self.holds(f"three CPUs, three threads and a buffer need no scrolling: {highest} px", highest <= HIGH, True)

    def labels(self):
        """Everything that can be pressed or filled has words for a screen reader."""
        if not isinstance(self.browser, Browser):
            return
        self.open()
        tree = self.browser.call("Accessibility.getFullAXTree")["nodes"]
        roles = ("button", "combobox", "textbox", "slider", "radio", "listbox", "radiogroup", "toolbar", "dialog", "img", "image")
        nameless = [node["role"]["value"] for node in tree if node.get("role", {}).get("value") in roles and not node.get("name", {}).get("value")]
        self.holds("each control has words", nameless, [])

    def times(self):
        name, run_ms = self.browser.read(RUN_TIMES)
        count, median, mean = self.step_times()
        print(f"in a {self.browser.name}: the longest run of a stored plan is {name}'s, {run_ms:.1f} ms; "
              f"of {count} steps forth and back the median is {median:.1f} ms, the mean {mean:.1f}")
        self.holds(f"a run of {name} takes {run_ms} ms", run_ms <= MOST_RUN_MS, True)
        self.holds(f"a step takes {median} ms", median <= MOST_STEP_MS, True)

    def step_times(self):
        """What steps take; measured again where they take too long, since other programs may have had the processor."""
        for _ in range(3):
            told = self.browser.read(STEP_TIMES)
            if told[1] <= MOST_STEP_MS:
                break
        return told

    def is_clean(self):
        self.holds("no request leaves the page", self.browser.requests(), [])
        self.holds("no fault in the page", self.browser.faults(), [])

    def policy(self):
        self.open()
        self.holds("nothing beyond the page's own policy", self.browser.read(BREACHES), [None, FORBIDDEN])

    def broken_module(self, room):
        page = (ROOT / "web/tower.html").read_text(encoding="utf-8")
        start = page.index('id="packed">') + 4000
        broken = Path(room, "broken.html")
        broken.write_text(page[:start] + "AAAAAAAA" + page[start + 8:], encoding="utf-8")
        self.browser.open(broken.as_uri())
        self.browser.wait("document.querySelector('#warn').textContent !== ''")
        is_said = self.text("#warn").startswith("The program in this page is broken or this browser cannot run it")
        self.holds("a broken module is said on the page", is_said, True)
        for name in ("WebAssembly", "DecompressionStream"):
            lacks = Path(room, f"no-{name}.html")
            lacks.write_text(re.sub(r'<meta http-equiv="Content-Security-Policy"[^>]*>', f"<script>delete window.{name}</script>", page), encoding="utf-8")
            self.browser.open(lacks.as_uri())
            self.browser.wait("document.querySelector('#warn').textContent !== ''")
            self.holds(f"a browser without {name}", self.text("#warn").startswith(f"This browser has no {name}, so the proved program cannot run here."), True)

    def pictures(self, folder):
        for link, name in [("#plan=two-receivers&step=59", "page"), (LOST, "lost-wake-up")]:
            self.open(link)
            self.browser.wait(STILL)
            self.browser.picture(str(folder / f"{name}.png"))


def looked_at(make, page, folder):
    """Looks at the page in a browser, by day and by night; returns how much was as it should be, and how much was not."""
    browser = make(is_dark=False)
    checks = Checks(browser, page)
    try:
        with tempfile.TemporaryDirectory() as room:
            for look in (checks.first_look, checks.steps, checks.to_the_end, checks.play, checks.links, checks.choose, checks.schedules, checks.plans,
                         checks.judge, checks.lessons, checks.grades, checks.beside, checks.laws, checks.printed_beside, checks.searches,
                         checks.targets, checks.looks, checks.sizes, checks.contrast, checks.labels,
                         checks.times, checks.is_clean):
                look()
            if folder:
                checks.pictures(folder)
            checks.policy()
            checks.broken_module(room)
    finally:
        browser.close()
    night = make(is_dark=True)
    dark = Checks(night, page)
    try:
        dark.contrast()
        dark.holds("the page is dark", night.read("getComputedStyle(document.body).backgroundColor"), "rgb(22, 22, 22)")
    finally:
        night.close()
    return checks.passed + dark.passed, checks.failed + dark.failed


def main():
    if sys.argv[1:] == ["--help"]:
        print(__doc__)
        return
    page, folder = Path(sys.argv[1]) if len(sys.argv) > 1 else ROOT / "web/tower.html", Path(sys.argv[2]) if len(sys.argv) > 2 else None
    passed = failed = 0
    for kind, program in ((Browser, find_browser()), (Firefox, find_firefox())):
        if program is None:
            print(f"in a {kind.name}: not looked at, since none is here")
            continue
        well, ill = looked_at(lambda is_dark: kind(program, WIDE, HIGH, is_dark), page, folder if kind is Browser else None)
        passed, failed = passed + well, failed + ill
        print(f"in a {kind.name}: {well} passed, {ill} failed")
    if not passed + failed:
        print("in a browser: no Chromium and no Firefox here: nothing was looked at")
        sys.exit(77)
    print(f"in a browser: {passed} passed, {failed} failed")
    sys.exit(failed > 0)


if __name__ == "__main__":
    main()
