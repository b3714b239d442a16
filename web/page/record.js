"use strict";
// A run of the twin as a record, in the form of plans/record.py, that grows step by step.

function cpuCells(kernel, c) {
  const cpu = kernel.cpus[c], section = cpu.section;
  return {
    [`c${c}.state`]: kernel.halted(c) ?? "live", [`c${c}.current`]: cpu.current, [`c${c}.hand`]: cpu.hand, [`c${c}.ready`]: cpu.ready,
    [`c${c}.pending`]: kernel.blocks.get(`pending${c}`).threads, [`c${c}.ended`]: kernel.guests.flatMap((guest, t) => (guest.home === c && isEnded(guest) ? [t] : [])),
    [`c${c}.section`]: section?.name ?? null, [`c${c}.lock`]: section?.lock ?? null, [`c${c}.doing`]: section === null ? "rests" : cpu.block === null ? "waits" : "inside",
  };
}

function threadCells(guest, t) {
  return { [`t${t}.place`]: guest.place, [`t${t}.line`]: guest.line, [`t${t}.registers`]: guest.registers.map(String), [`t${t}.stage`]: guest.stage };
}

function bufferCells(kernel, buffer, b) {
  const line = side => buffer.line[side].map(t => [t, kernel.guests[t].position]);
  return {
    [`b${b}.items`]: buffer.items.map(spelledMessage), [`b${b}.closed`]: buffer.closed, [`b${b}.owner`]: buffer.owner, [`b${b}.sleepers`]: buffer.sleepers,
    [`b${b}.receivers`]: buffer.waiting[RECEIVERS], [`b${b}.senders`]: buffer.waiting[SENDERS], [`b${b}.receive`]: line(RECEIVERS), [`b${b}.send`]: line(SENDERS),
  };
}

// All that a page shows of a state: a name for each thing, and its value. `last` says what step led here, as laws.js has it.
function cellsOf(kernel, last = null) {
  return Object.assign({}, ...kernel.cpus.map((_, c) => cpuCells(kernel, c)), ...kernel.guests.map(threadCells),
    ...kernel.buffers().map((buffer, b) => bufferCells(kernel, buffer, b)), { quiet: kernel.isQuiet(), broken: faultsIn(kernel, last) });
}

const isSame = (x, y) => x === y || (Array.isArray(x) && Array.isArray(y) && x.length === y.length && x.every((one, i) => isSame(one, y[i])));

class RunRecord {
  // `facts` has what pages say of places and mistakes.
  constructor(plan, wrong, facts) {
    Object.assign(this, { plan, wrong });
    this.kernel = new Kernel(plan, wrong);
    const cells = cellsOf(this.kernel);
    this.values = Object.values(cells);
    this.printed = [this.print()]; // what `run` has to print after each number of steps
    this.frame = {
      cpus: plan.cpus, lock: plan.lock, capacities: plan.buffers, threads: plan.threads.map(({ cpu, program }) => ({ home: cpu, program })),
      laws: [...LAWS.keys()], places: facts.places, names: Object.keys(cells), boot: [...this.values], wrong, mistake: facts.mistakes[wrong] ?? null, steps: [],
    };
    this.taken = [];
  }

  get length() {
    return this.taken.length;
  }

  print() {
    return { output: this.kernel.text(), errors: this.kernel.states() };
  }

  // The calls that took effect, as laws.js has their order.
  order() {
    return orderOf(tracesOf(this.kernel), this.plan.buffers.length);
  }

  // Takes a step. Returns what it did: [cpu, section, part, entry, [cell, value, ..]].
  step(c) {
    const earlier = this.order(), [section, part] = this.kernel.step(c), values = Object.values(cellsOf(this.kernel, { earlier, cpu: c })), changes = [];
    values.forEach((value, i) => { if (!isSame(value, this.values[i])) changes.push(i, value); });
    this.values = values;
    this.taken.push(c);
    const { output } = this.printed.at(-1);
    this.printed.push(this.kernel.entry ? this.print() : { output, errors: this.kernel.states() });
    return [c, section, part, this.kernel.entry, changes];
  }

  // Goes back to the state after so many steps.
  cut(length) {
    if (length < this.length) this.restore(length);
  }

  // Makes the state after so many steps anew, by running them.
  restore(length) {
    this.taken.length = length;
    this.printed.length = length + 1;
    this.kernel = new Kernel(this.plan, this.wrong);
    for (const c of this.taken.slice(0, -1)) this.kernel.step(c);
    const cpu = this.taken.at(-1), last = cpu === undefined ? null : { earlier: this.order(), cpu };
    if (last) this.kernel.step(cpu);
    this.values = Object.values(cellsOf(this.kernel, last));
  }
}
