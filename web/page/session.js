"use strict";
// A plan that is looked at, with its schedule: the record that grows and is cut as the reader chooses, and what the proved program says of it.

const MOST_STEPS = 20000, MOST_CELLS = 8000000; // of a run that is drawn: its steps, and the cells of all its states
const MOST_RUN_ON = 150, RANDOM_ROUNDS = 4, RANDOM_STRIDES = [1, 3, 12, 24];

// What the proved program prints after each beginning of a schedule, beside what the twin prints.
class Evidence {
  constructor(program, text, record) {
    Object.assign(this, { program, text, record, agrees: [], counted: 0 });
  }

  // Whether the two print the same after so many steps.
  at(step) {
    if (this.agrees[step] === undefined) {
      const said = this.program.runPlan(this.text, spelledSchedule(this.record.taken.slice(0, step))), { output, errors } = this.record.printed[step];
      this.agrees[step] = said.status === 0 && said.output === output && said.errors === errors;
      this.counted++;
    }
    return this.agrees[step];
  }

  cut(length) {
    if (length + 1 >= this.agrees.length) return;
    this.agrees.length = length + 1;
    this.counted = this.agrees.filter(one => one !== undefined).length;
  }

  // Compares one more beginning, and says whether there was one.
  compareNext() {
    const step = this.record.printed.findIndex((_, i) => this.agrees[i] === undefined);
    if (step >= 0) this.at(step);
    return step >= 0;
  }

  firstDifference() {
    const step = this.agrees.indexOf(false);
    return step < 0 ? null : step;
  }
}

class Session {
  // `wanted` is {name, text, wrong, schedule}: a plan's name and text, the mistake of the kernel or null, and a schedule that the program has taken.
  constructor(program, facts, wanted) {
    const { name, text, wrong, schedule } = wanted;
    Object.assign(this, { program, facts, name, text, wrong, past: [], breakdown: null, at: 0 });
    this.plan = planOf(text);
    const { items, total } = readSchedule(schedule), most = this.mostSteps();
    if (total > most) throw new RangeError(`the schedule has ${total} steps: of this plan at most ${most} are drawn`);
    this.begin(stepsOf(items));
  }

  // How long a run of this plan may be.
  mostSteps() {
    const cells = Object.keys(cellsOf(new Kernel(this.plan))).length;
    return Math.min(MOST_STEPS, Math.floor(MOST_CELLS / cells));
  }

  begin(steps) {
    this.record = new RunRecord(this.plan, this.wrong, this.facts);
    this.run = new Run(this.record.frame);
    this.evidence = new Evidence(this.program, this.text, this.record);
    this.setSteps(steps);
    this.go(0);
  }

  get steps() {
    return this.record.taken;
  }

  // The steps up to where the reader is.
  stepsHere() {
    return this.steps.slice(0, this.at);
  }

  go(step) {
    this.at = Math.max(0, Math.min(this.run.length, step));
  }

  // Makes the schedule these steps, and goes behind the last. What both have from the start on is kept.
  setSteps(steps) {
    const other = this.steps.findIndex((c, i) => c !== steps[i]), kept = other < 0 ? this.steps.length : other;
    this.breakdown = null;
    this.cut(kept);
    for (const c of steps.slice(kept)) if (!this.grow(c)) break;
    this.go(this.run.length);
  }

  cut(length) {
    this.record.cut(length);
    this.run.cut(length);
    this.evidence.cut(length);
  }

  // Takes a step at the end. A kernel with a mistake may break down in it; then there is none, and it is said.
  grow(c) {
    const length = this.run.length;
    try {
      this.run.grow(this.record.step(c));
    } catch (fault) {
      if (!this.wrong) throw fault;
      this.breakdown = `This kernel breaks down in step ${length + 1}.`;
      this.record.restore(length);
    }
    return this.breakdown === null;
  }

  change(steps) {
    this.past.push({ steps: [...this.steps], at: this.at });
    this.setSteps(steps.slice(0, this.mostSteps()));
  }

  undo() {
    const last = this.past.pop();
    if (!last) return;
    this.setSteps(last.steps);
    this.go(last.at);
  }

  // The CPU steps here; what stood behind is dropped.
  choose(c) {
    this.change([...this.stepsHere(), c]);
  }

  // The CPU steps until its thread sleeps or ends, it looks in vain, or it finds nothing to do.
  runOn(c) {
    this.change(this.stepsHere());
    for (let count = 0; count < MOST_RUN_ON && this.grow(c) && !this.isBlocked(c); count++);
    this.go(this.run.length);
  }

  isBlocked(c) {
    const last = this.run.length, { part } = this.run.step(last), cell = (name, at = last) => this.run.cell(`c${c}.${name}`, at);
    const isIdle = cell("current") === null && cell("hand") === null;
    return part === "" || part === "misses" || (isIdle && (cell("current", last - 1) !== null || (cell("section") === null && cell("ready").length === 0)));
  }

  // Steps at random, in which each CPU comes in each round.
  random() {
    const steps = this.stepsHere(), below = n => Math.floor(Math.random() * n);
    for (let round = 0; round < RANDOM_ROUNDS; round++) {
      const order = counted(this.plan.cpus).map(c => [Math.random(), c]).sort((x, y) => x[0] - y[0]);
      for (const [, c] of order) steps.push(...Array(1 + below(RANDOM_STRIDES[below(RANDOM_STRIDES.length)])).fill(c));
    }
    this.change(steps);
  }

  // Takes the same steps in another kernel: the proved one, or one that makes a mistake.
  changeKernel(wrong) {
    const { at } = this, steps = [...this.steps];
    this.wrong = wrong;
    this.begin(steps);
    this.go(at);
  }

  // What is printed of the plan after the steps up to here: by the proved program, and by the kernel that is shown.
  printedHere() {
    const schedule = spelledSchedule(this.stepsHere());
    return { schedule, proved: this.program.runPlan(this.text, schedule), shown: this.record.printed[this.at] };
  }

  // The first step after which a law does not hold, or this one if it is named; -1 where there is none.
  firstBroken(law = null) {
    return this.run.states.findIndex((_, step) => this.run.cell("broken", step).some(([broken]) => law === null || law === broken));
  }
}

// A schedule in rounds: so many steps of each CPU in turn, until none has anything to do. A CPU without anything to do would look into its pending queue
// again and again: its turn is passed over. A text that is no plan has none.
const ROUND_STEPS = 60, MOST_ROUND_STEPS = 2000;
function roundsOf(program, text) {
  if (program.runPlan(text, "").status !== 0) return "";
  const kernel = new Kernel(planOf(text)), steps = [], isOver = c => kernel.rests(c) || kernel.halted(c) !== null;
  const turn = c => {
    for (let left = Math.min(ROUND_STEPS, MOST_ROUND_STEPS - steps.length); left > 0 && !isOver(c); left--) {
      kernel.step(c);
      steps.push(c);
    }
  };
  while (steps.length < MOST_ROUND_STEPS && !kernel.cpus.every((_, c) => isOver(c))) kernel.cpus.forEach((_, c) => turn(c));
  return spelledSchedule(steps);
}

// The refusal of a plan or of a schedule: the program's own line and what stands beside it; null where it takes both.
function refusalOf(program, text, schedule) {
  const said = program.runPlan(text, schedule);
  if (said.status === 0) return null;
  const line = said.errors.trimEnd(), cpus = line.includes("BadCpu") ? planOf(text).cpus : null;
  return { line, where: whereIs(text, schedule, line, cpus) };
}
