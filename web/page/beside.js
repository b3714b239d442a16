"use strict";
// Two runs side by side: the proved kernel's beside that of a kernel with a mistake, by the same schedule, and the first step after which they differ.

// Whether two runs differ after a step, in what a page shows but for the laws.
function isOther(one, other, step) {
  const [mine, theirs] = [one, other].map(run => run.states[step].cells), parts = run => run.steps[step - 1].slice(1, 3);
  return mine.some((cell, i) => one.record.names[i] !== "broken" && !isSame(cell, theirs[i])) || (step > 0 && !isSame(parts(one), parts(other)));
}

// The first step after which two runs differ, up to the shorter one's end, or null.
function firstOtherStep(one, other) {
  const step = counted(Math.min(one.length, other.length) + 1).find(at => isOther(one, other, at));
  return step ?? null;
}

class Beside {
  constructor() {
    Object.assign(this, { isOn: false, record: null, run: null });
  }

  // The run of the proved kernel by the steps of a session. What both had before is kept.
  follow({ plan, facts, steps }) {
    if (this.record?.plan !== plan) {
      this.record = new RunRecord(plan, null, facts);
      this.run = new Run(this.record.frame);
    }
    const { taken } = this.record, other = taken.findIndex((c, i) => c !== steps[i]);
    if (other >= 0) { // a step that is another, or none
      this.record.cut(other);
      this.run.cut(other);
    }
    for (const c of steps.slice(this.record.length)) this.run.grow(this.record.step(c));
    return this.run;
  }
}
