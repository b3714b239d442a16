"use strict";
// A search as a reader asks for it, with what it found; and what a worker does.

const TELL_EVERY = 100; // milliseconds

const ALL_LAWS = [...LAW_BITS.values()].reduce((all, bit) => all | bit, 0);
const isDeadlock = kernel => kernel.isQuiet() && !kernel.guests.every(isEnded);

// What a reader may look for: a law's name, "broken" for any law, "deadlock", or "own" with a test of a kernel.
function askedFor(what, test = null) {
  if (what === "own") return { ...NOTHING, test };
  return what === "deadlock" ? { ...NOTHING, isDeadlock: true } : { ...NOTHING, bits: what === "broken" ? ALL_LAWS : bitOf(what) };
}

// Neighbours of one CPU as one run, as the items of a schedule are.
function merged(runs) {
  const found = [];
  for (const { cpu, times } of runs) {
    if (found.at(-1)?.cpu === cpu) found.at(-1).times += times;
    else found.push({ cpu, times });
  }
  return found;
}
const runsOf = steps => merged(steps.map(cpu => ({ cpu, times: 1 })));

// Each way to move two runs of one CPU together, to the place of the first or of the second.
function movesTogether(runs) {
  const found = [];
  runs.forEach(({ cpu, times }, i) => runs.forEach((other, j) => {
    if (j <= i || other.cpu !== cpu) return;
    const whole = { cpu, times: times + other.times }, [front, between, behind] = [runs.slice(0, i), runs.slice(i + 1, j), runs.slice(j + 1)];
    found.push(merged([...front, whole, ...between, ...behind]), merged([...front, ...between, whole, ...behind]));
  }));
  return found;
}

// Whether the programs of a plan may go back to an earlier line: then runs have no end, and only a search without history has one.
function hasLoops({ threads }) {
  const targetOf = ([word, ...pieces]) => ({ jnz: pieces[1], send: pieces[2], sendm: pieces[2], recv: pieces[2], recvm: pieces[1] })[word];
  return threads.some(({ program }) => program.some((line, at) => Number(targetOf(line.split(" ")) ?? Infinity) <= at));
}

// A search that goes on from what it found to the next. `asked` has the plan's text, the mistake, what is looked for, and the ways of States.
class Search {
  constructor({ text, wrong, what, bySections, isEndless, law = null, most = MOST_BYTES }) {
    const plan = planOf(text), test = law === null ? null : brokenBy(law, plan);
    Object.assign(this, { what, test, asked: { wanted: askedFor(what, test), hasLaws: what !== "deadlock" && what !== "own" } });
    this.states = new States(plan, wrong, { bySections, isEndless, most });
  }

  // Goes on; tells what was found, or that all were seen, or which limit was met, in a form that a worker can post.
  next(tell) {
    const { states } = this, found = states.look({ ...this.asked, tell }), { count, moved, depth, isAll, isLimited, bySections, isEndless } = states;
    const told = { count, moved, depth, isAll: found === null && isAll && !isLimited, isLimited, bySections, isEndless, steps: null, why: [] };
    if (found === null) return told;
    const steps = states.calmed(states.stepsFound(found)), { kernel, faults } = states.endOf(steps);
    if (!this.isSo(kernel, faults)) throw new Error(`what was found after ${spelledSchedule(steps)} is not there when it is run again`);
    return { ...told, steps, why: this.asked.hasLaws ? faults : [] };
  }

  // Whether a kernel that took the steps of what was found is what was looked for.
  isSo(kernel, faults) {
    if (this.what === "deadlock") return isDeadlock(kernel);
    return this.what === "own" ? this.test(kernel) : faults.some(([law]) => this.what === "broken" || law === this.what);
  }
}

// What a worker does: a search, with its progress from time to time, that goes on when it is asked for more.
function serveSearch() {
  let search = null;
  self.onmessage = ({ data: { asked } }) => {
    let told = performance.now();
    const tell = ({ count, looked, depth, memory }) => {
      if (performance.now() - told < TELL_EVERY) return;
      told = performance.now();
      self.postMessage({ progress: { count, looked, depth, bytes: memory.used } });
    };
    if (asked) search = new Search(asked);
    self.postMessage({ found: search.next(tell) });
  };
}
