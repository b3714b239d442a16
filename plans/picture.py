#!/usr/bin/env python3
"""Draws a run of a plan as one SVG, on standard output.

    plans/picture.py PLAN [SCHEDULE] > picture.svg

The default schedule is the one in the first lines of the plan. It draws the record of a run (plans/record.py), in the colours of its pages. `mctower run`
runs each prefix of the schedule, and must print what plans/kernel.py prints; otherwise nothing is drawn. The places of threads and the calls that took
effect are therefore the program's. Only plans/kernel.py says which section a CPU is in. MCTOWER names the program to run.
"""
import sys
from html import escape
from pathlib import Path

from reading import Refusal, bytes_at
from record import PLACES, PROGRAM, compared, placed, places_in, program_is_there, record
from schedules import chosen, read_run, steps_of

# A part of a section, in a CPU's lane: its shade, its mark, and what it means.
PARTS = {
    "draws": ("#ffffff", "+", "takes a ticket"),
    "misses": ("#ffffff", "…", "looks in vain"),
    "enters": ("#b9b9b9", "", "enters"),
    "ends": ("#555555", "", "edits and leaves"),
    "alone": ("#eeeeee", "", "a step without a lock"),
}


def spans(values):
    """Runs of equal neighbours: (first, behind the last, value)."""
    found, start = [], 0
    for i in range(1, len(values) + 1):
        if i == len(values) or values[i] != values[start]:
            found.append((start, i, values[start]))
            start = i
    return found


class Picture:
    """One SVG: a lane for each thread, a lane for each CPU beneath, a legend."""

    LEFT, LANE, TOP = 70, 26, 34

    def __init__(self, title, told):
        self.places, self.steps, self.parts = places_in(told), told["steps"], []
        self.threads, self.cpus = len(told["threads"]), told["cpus"]
        self.wide = max(5.0, min(14.0, 2100 / max(1, len(self.steps))))
        self.width = self.LEFT + self.wide * max(1, len(self.steps)) + 16
        self.text(6, 18, title, 13)

    def text(self, x, y, words, size=10, extra=""):
        self.parts.append(f'<text x="{x:.1f}" y="{y:.1f}" font-size="{size}" {extra}>{escape(words)}</text>')

    def box(self, x, y, w, h, fill, note, stroke="#555"):
        self.parts.append(f'<rect x="{x:.1f}" y="{y:.1f}" width="{w:.1f}" height="{h}" fill="{fill}" stroke="{stroke}" '
                          f'stroke-width="0.6"><title>{escape(note)}</title></rect>')

    def at(self, step):
        return self.LEFT + self.wide * step

    def thread_lane(self, t, y):
        self.text(6, y + 16, f"thread {t}", 11)
        for first, behind, place in spans([at[t] for at in self.places[1:]] or [self.places[0][t]]):
            name, number, meaning = placed(place)
            letter, colour, ink, _ = PLACES[name]
            x, w = self.at(first), self.wide * (behind - first)
            self.box(x, y, w, self.LANE - 6, colour, f"{meaning}, steps {first + 1} to {behind}")
            short = letter + number if name in ("LockSleeper", "WaitRecv", "WaitSend", "Hand") else letter
            label = next((words for words in (meaning, short) if w >= 7 * len(words)), "")
            self.text(x + 2, y + 14, label, 10, f'fill="{ink}"')

    def effects(self, y):
        """A tick on its thread's lane for each call that took effect, with its entry."""
        for step, (_, _, _, entry, _) in enumerate(self.steps, 1):
            if entry:
                _, t, kind, b, value, *_ = entry
                x, lane, words = self.at(step), y + self.LANE * t, f"{kind} {b} {value}".removesuffix(" -")
                self.parts.append(f'<path d="M{x:.1f} {lane - 3} v{self.LANE}" stroke="black" stroke-width="2">'
                                  f'<title>{escape(words)}, step {step}</title></path>')
                self.text(x - 2, lane - 1, words, 8, 'text-anchor="end" font-weight="bold"')

    def cpu_lane(self, c, y):
        self.text(6, y + 16, f"CPU {c}", 11)
        sections = []
        for i, (cpu, name, part, *_) in enumerate(self.steps):
            if cpu != c or not part:
                continue
            self.cpu_step(i, y, name, part)
            if sections and part not in ("draws", "alone"):
                sections[-1][1] = i + 1
            else:
                sections.append([i, i + 1, name])
        for first, behind, name in sections:
            if self.wide * (behind - first) >= 4.6 * len(name):
                self.text(self.at(first) + 1, y + self.LANE - 4, name, 8)

    def cpu_step(self, i, y, name, part):
        shade, mark, meaning = PARTS[part]
        self.box(self.at(i), y, self.wide, self.LANE - 12, shade, f"{name}: {meaning}, step {i + 1}")
        if mark and self.wide >= 8:
            self.text(self.at(i) + self.wide / 2, y + 10, mark, 9, 'text-anchor="middle"')

    def legend(self, y):
        x = 6
        for letter, colour, ink, meaning in PLACES.values():
            words = meaning.replace(" from buffer N", "").replace(" to buffer N", "").replace("buffer N", "a buffer").replace("CPU N", "another CPU")
            self.box(x, y, 18, 14, colour, words)
            self.text(x + 4, y + 11, letter, 10, f'fill="{ink}"')
            self.text(x + 22, y + 11, words, 10)
            x += 44 + 5.8 * len(words)
        self.width = max(self.width, x)
        self.text(6, y + 30, "A tick: a call takes effect, with its entry (what, buffer, value). "
                             "On a CPU's lane: + takes a ticket, … looks in vain, light grey enters, "
                  "dark grey edits and leaves; under it the section.", 10)

    def svg(self):
        y = self.TOP
        for t in range(self.threads):
            self.thread_lane(t, y + self.LANE * t)
        self.effects(y)
        y += self.LANE * self.threads + 8
        for c in range(self.cpus):
            self.cpu_lane(c, y + self.LANE * c)
        y += self.LANE * self.cpus + 6
        for step in range(0, len(self.steps) + 1, 10):
            self.text(self.at(step), y + 6, str(step), 8)
        self.legend(y + 16)
        head = (f'<svg xmlns="http://www.w3.org/2000/svg" width="{self.width:.0f}" height="{y + 56}" '
                'font-family="sans-serif"><rect width="100%" height="100%" fill="white"/>')
        return "\n".join([head, *self.parts, "</svg>"]) + "\n"


def main(words):
    if words in (["--help"], ["-h"]):
        print(__doc__)
        return 0
    if not 1 <= len(words) <= 2:
        sys.exit("usage: plans/picture.py PLAN [SCHEDULE] > picture.svg")
    path, schedule = words[0], words[1] if len(words) == 2 else None
    if not Path(path).exists():
        sys.exit(f"picture: no such file: {path}; expected a plan, for example plans/one-send.toml")
    try:
        raw = bytes_at(path)
        schedule = chosen(raw, schedule)
        plan, _ = read_run(raw, schedule)
    except Refusal as refusal:
        sys.stderr.write(refusal.told(path))
        return refusal.status
    if not program_is_there():
        sys.exit(f"picture: no such program: {PROGRAM}; build it with tools/prove-all.py, or set MCTOWER to its path")
    steps = steps_of(schedule or "")
    told, printed = record(plan, steps)
    try:
        compared(plan, raw.decode("utf-8"), steps, printed)
    except RuntimeError as fault:
        sys.exit(f"picture: {fault}")
    sys.stdout.write(Picture(f"{Path(path).name}, schedule {schedule or '(none)'}", told).svg())
    return 0


if __name__ == "__main__":
    sys.exit(main(sys.argv[1:]))
