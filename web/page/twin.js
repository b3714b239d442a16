"use strict";
// The step table once more, as a small plain program: what plans/kernel.py is, so that a page shows what the proved program does not print (sections,
// lines, registers, owners, who waits where). Nothing here is proved. In the page it is compared with the proved program after each step, and
// web/test.mjs holds its cells against those of plans/kernel.py.

const RECEIVERS = 0, SENDERS = 1;
const CALL_SIDES = { send: SENDERS, sendm: SENDERS, recv: RECEIVERS, recvm: RECEIVERS, close: SENDERS };
const REGISTERS = 8, WORD_LIMIT = 2n ** 64n;

const spelledMessage = words => words.join(",") || "-";
const isEnded = guest => guest.place === "Ended";
const replaced = (pair, side, one) => (side === RECEIVERS ? [one, pair[SENDERS]] : [pair[RECEIVERS], one]);
function without(list, one) {
  const at = list.indexOf(one);
  return at < 0 ? list : [...list.slice(0, at), ...list.slice(at + 1)];
}

// The buffer and the side of an instruction that is a call, or null. A close signals as a send does.
function callOf([word, buffer]) {
  const side = CALL_SIDES[word];
  return side === undefined ? null : { buffer: Number(buffer), side };
}

// A guest thread: its program, its line, its registers, the stage of its call, and its place.
class Guest {
  constructor({ cpu, program }) {
    this.home = cpu;
    this.program = program.map(line => line.split(" "));
    this.calls = this.program.map(callOf);
    Object.assign(this, { line: 0, registers: Array(REGISTERS).fill(0n), stage: null, position: 0, effect: null, place: `Ready(${cpu})` });
  }

  instruction() {
    return this.program[this.line] ?? ["exit"];
  }

  // The buffer and the side of the call at which the thread stands, or null.
  call() {
    return this.calls[this.line] ?? null;
  }

  // The words that the send at which the thread stands offers.
  message() {
    const [word, , piece] = this.instruction();
    return word === "sendm" ? this.registers.slice(0, Number(piece)) : [this.registers[Number(piece.slice(1))]];
  }

  // A message goes into all registers, or its first word into one; a call that found its buffer closed goes to its target, if it has one.
  endCall() {
    const instruction = this.instruction(), { kind, message } = this.effect, isWhole = instruction[0] === "recvm";
    if (kind === "recv" && isWhole) this.registers = [...message, ...Array(REGISTERS - message.length).fill(0n)];
    else if (kind === "recv") this.registers[Number(instruction[2].slice(1))] = message[0];
    const target = kind === "sendc" || kind === "recvc" ? instruction[isWhole ? 2 : 3] : undefined;
    this.line = target === undefined ? this.line + 1 : Number(target);
    this.stage = null;
  }
}

// A buffer's block: what its lock guards. Lists and pairs of both sides are never changed in place, so a copy keeps its own.
const AT_BOOT = { owner: null, items: [], effects: 0, sleepers: [], waiting: [[], []], line: [[], []], positions: [0, 0], closed: false, closes: 0 };
class BufferBlock {
  constructor(capacity, { owner, items, effects, sleepers, waiting, line, positions, closed, closes } = AT_BOOT) {
    this.capacity = capacity;
    this.owner = owner;
    this.items = items;
    this.effects = effects;
    this.sleepers = sleepers;
    this.waiting = waiting;
    this.line = line;
    this.positions = positions;
    this.closed = closed;
    this.closes = closes;
  }

  copied() {
    return new BufferBlock(this.capacity, this);
  }

  mayGo(side) {
    return this.closed || (side === SENDERS ? this.items.length < this.capacity : this.items.length > 0);
  }
}

class PendingBlock {
  constructor(threads = []) {
    this.threads = threads;
  }

  copied() {
    return new PendingBlock(this.threads);
  }
}

// The sections of a call by its stages: of a receive, and of a send or a close.
const STAGE_SECTIONS = {
  AcqQ: ["AcqQ", "AcqQ"], Enter: ["Enter", "Enter"], Shut: ["Shut", "Shut"], Try: ["TryTake", "TryPut"], Wait: ["Wait", "Wait"], Join: ["Join", "Join"],
  Again: ["AcqQ", "AcqQ"], Other: ["SigSend", "SigRecv"], Own: ["SigRecv", "SigSend"], RelQ: ["RelQ", "RelQ"], Returns: ["Returns", "Returns"],
};

// All sections of a plan, each with its name and its lock: of calls by buffer, stage and side; those that send a thread home by thread; drains and yields by CPU.
function sectionsOf({ cpus, buffers, threads }) {
  const ofStage = (names, b) => names.map(name => ({ name: `${name} ${b}`, lock: `buffer${b}` }));
  const ofCalls = b => Object.fromEntries(Object.entries(STAGE_SECTIONS).map(([stage, names]) => [stage, ofStage(names, b)]));
  const ofCpus = name => Array.from({ length: cpus }, (_, c) => ({ name, lock: `pending${c}` }));
  const sends = threads.map(({ cpu }, t) => ({ name: `Pend t${t}`, lock: `pending${cpu}` }));
  return { calls: buffers.map((_, b) => ofCalls(b)), sends, drains: ofCpus("Drain"), yields: ofCpus("Yield") };
}

// What one step of a CPU does, with the name of the section that it works in. It is built of a plan, and perhaps of a mistake that it makes.
class Kernel {
  constructor(plan, wrong = null) {
    this.wrong = wrong;
    this.room = plan.trace;
    this.cpus = Array.from({ length: plan.cpus }, () => ({ current: null, hand: null, ready: [], trace: [], begun: 0, section: null, ticket: 0, block: null }));
    this.guests = plan.threads.map(thread => new Guest(thread));
    this.blocks = new Map(plan.buffers.map((capacity, b) => [`buffer${b}`, new BufferBlock(capacity)]));
    for (let c = 0; c < plan.cpus; c++) this.blocks.set(`pending${c}`, new PendingBlock());
    this.words = new Map([...this.blocks.keys()].map(lock => [lock, { next: 0, serving: 0 }]));
    this.entry = null;
    this.guests.forEach((guest, t) => this.cpus[guest.home].ready.push(t));
    this.homes = this.cpus.map((_, c) => this.guests.filter(guest => guest.home === c));
    this.sections = sectionsOf(plan);
  }

  // Takes one step of a CPU, and tells its section and its part of it: "" where there is none.
  step(c) {
    const cpu = this.cpus[c];
    this.entry = null;
    if (cpu.section === null) return this.begin(c, cpu);
    const { name, lock } = cpu.section, words = this.words.get(lock);
    if (cpu.block === null) {
      if (this.wrong !== "look-always-hits" && words.serving !== cpu.ticket) return [name, "misses"];
      cpu.block = this.blocks.get(lock).copied();
      return [name, "enters"];
    }
    const block = cpu.block;
    cpu.section = cpu.block = null;
    this.edit(c, cpu, name, block);
    this.blocks.set(lock, block);
    words.serving++;
    return [name, "ends"];
  }

  draw(cpu, section) {
    cpu.section = section;
    cpu.ticket = this.words.get(section.lock).next++;
    return [section.name, "draws"];
  }

  // Why a CPU takes no step between its sections, or null.
  halted(c) {
    const cpu = this.cpus[c];
    if (cpu.section !== null || cpu.hand !== null) return null;
    if (this.homes[c].every(isEnded)) return "AllEnded";
    const guest = cpu.current === null ? null : this.guests[cpu.current];
    return guest?.call() && guest.stage === null && cpu.trace.length + cpu.begun === this.room ? "TraceFull" : null;
  }

  begin(c, cpu) {
    const { calls, sends, drains, yields } = this.sections;
    if (cpu.hand !== null) return this.draw(cpu, sends[cpu.hand]);
    if (this.halted(c)) return ["", ""];
    if (cpu.current === null && cpu.ready.length === 0) return this.draw(cpu, drains[c]);
    if (cpu.current === null) return this.switchOver(c, cpu);
    const guest = this.guests[cpu.current], call = guest.call();
    if (call === null) return guest.instruction()[0] === "yield" ? this.draw(cpu, yields[c]) : this.compute(cpu, guest);
    if (guest.stage === null) {
      guest.stage = "AcqQ";
      cpu.begun++;
    }
    return this.draw(cpu, calls[call.buffer][guest.stage][call.side]);
  }

  switchOver(c, cpu) {
    [cpu.current, ...cpu.ready] = cpu.ready;
    this.guests[cpu.current].place = `Running(${c})`;
    return ["switch", "alone"];
  }

  compute(cpu, guest) {
    const [word, first, second] = guest.instruction(), registers = guest.registers, to = Number(first?.slice(1)), from = Number(second?.slice(1));
    guest.line++;
    if (word === "set") registers[to] = BigInt(second);
    else if (word === "add") registers[to] = (registers[to] + registers[from]) % WORD_LIMIT;
    else if (word === "sub") registers[to] = (registers[to] - registers[from] + WORD_LIMIT) % WORD_LIMIT;
    else if (word === "jnz") guest.line = registers[to] ? Number(second) : guest.line;
    else {
      guest.place = "Ended";
      cpu.current = null;
    }
    return [word, "alone"];
  }

  // The edit of a section on its lock's block, which the CPU has in its hands.
  edit(c, cpu, name, block) {
    const t = cpu.current;
    if (name.startsWith("Pend")) {
      this.sendHome(cpu, block);
      if (t !== null && this.guests[t].stage === "Returns") this.guests[t].endCall();
    } else if (name === "Drain" || name === "Yield") {
      this.drain(c, cpu, block);
      if (name === "Yield") this.letOthersRun(c, cpu, t);
    } else this.editBuffer(c, cpu, t, block);
  }

  letOthersRun(c, cpu, t) {
    this.guests[t].line++;
    this.guests[t].place = `Ready(${c})`;
    cpu.current = null;
    cpu.ready = [...cpu.ready, t];
  }

  sendHome(cpu, pending) {
    const s = cpu.hand;
    if (this.wrong !== "pend-keeps-the-hand" || pending.threads.includes(s)) cpu.hand = null;
    this.guests[s].place = `Pending(${this.guests[s].home})`;
    pending.threads = [...pending.threads, s];
  }

  drain(c, cpu, pending) {
    for (const t of pending.threads) this.guests[t].place = `Ready(${c})`;
    cpu.ready = [...cpu.ready, ...pending.threads];
    pending.threads = [];
  }

  editBuffer(c, cpu, t, buffer) {
    const guest = this.guests[t], { buffer: b, side } = guest.call();
    switch (guest.stage) {
      case "AcqQ": case "Again": return this.acquire(cpu, guest, t, buffer, b);
      case "Enter": return this.enterLine(guest, t, buffer, side);
      case "Shut": return this.shut(c, cpu, t, buffer);
      case "Try": return this.attempt(c, cpu, t, buffer, side);
      case "Wait": case "Join": return this.wait(c, cpu, t, buffer, b, side);
      case "Other": case "Own": return this.signalOne(c, cpu, guest, buffer, side);
      default: return this.giveBack(c, cpu, guest, buffer);
    }
  }

  acquire(cpu, guest, t, buffer, b) {
    const first = guest.instruction()[0] === "close" ? "Shut" : "Enter";
    guest.stage = guest.stage === "AcqQ" ? first : "Try";
    if (buffer.owner === null) {
      buffer.owner = t;
      return;
    }
    buffer.sleepers = [...buffer.sleepers, t];
    Kernel.sleep(cpu, guest, `LockSleeper(${b})`);
  }

  enterLine(guest, t, buffer, side) {
    guest.stage = "Try";
    guest.position = buffer.positions[side];
    buffer.positions = replaced(buffer.positions, side, guest.position + 1);
    buffer.line = replaced(buffer.line, side, [...buffer.line[side], t]);
  }

  wait(c, cpu, t, buffer, b, side) {
    const guest = this.guests[t], stage = guest.stage;
    if (stage === "Wait" && this.wrong === "wait-frees-first") {
      guest.stage = "Join";
      this.release(c, cpu, buffer);
      return;
    }
    buffer.waiting = replaced(buffer.waiting, side, [...buffer.waiting[side], t]);
    guest.stage = "Again";
    Kernel.sleep(cpu, guest, `${["WaitRecv", "WaitSend"][side]}(${b})`);
    if (stage === "Wait") this.release(c, cpu, buffer);
  }

  signalOne(c, cpu, guest, buffer, side) {
    this.signal(c, cpu, buffer, guest.stage === "Own" ? side : 1 - side);
    guest.stage = guest.stage === "Other" && this.wrong !== "other-side-only" ? "Own" : "RelQ";
  }

  giveBack(c, cpu, guest, buffer) {
    this.release(c, cpu, buffer);
    guest.stage = "Returns";
    if (cpu.hand === null) guest.endCall();
  }

  attempt(c, cpu, t, buffer, side) {
    const guest = this.guests[t], isFirst = buffer.line[side][0] === t || (this.wrong === "take-skips-the-turn" && side === RECEIVERS);
    if (!isFirst || !buffer.mayGo(side)) {
      guest.stage = "Wait";
      return;
    }
    buffer.line = replaced(buffer.line, side, without(buffer.line[side], t));
    const { kind, message } = side === SENDERS ? this.put(guest, buffer) : this.taken(buffer);
    this.takeEffect(c, cpu, t, buffer, kind, message, guest.position);
    if ((kind === "sendc" || kind === "recvc") && this.wrong === "closed-signals-nobody") guest.stage = "RelQ";
  }

  put(guest, buffer) {
    const message = guest.message(), kept = this.wrong === "first-word-alone" ? message.slice(0, 1) : message;
    if (!buffer.closed) buffer.items = [...buffer.items, kept];
    return { kind: buffer.closed ? "sendc" : "send", message };
  }

  taken(buffer) {
    const [message, ...behind] = buffer.items;
    if (message === undefined || (buffer.closed && this.wrong === "closed-before-empty")) return { kind: "recvc", message: [] };
    buffer.items = behind;
    return { kind: "recv", message };
  }

  shut(c, cpu, t, buffer) {
    buffer.closed = true;
    buffer.closes++;
    if (this.wrong === "close-drops-the-items") buffer.items = [];
    this.takeEffect(c, cpu, t, buffer, "close", [], buffer.closes - 1);
  }

  takeEffect(c, cpu, t, buffer, kind, message, position) {
    const guest = this.guests[t];
    this.entry = [c, t, kind, guest.call().buffer, spelledMessage(message), buffer.effects++, position];
    guest.stage = "Other";
    guest.effect = { kind, message };
    cpu.begun--;
    cpu.trace = [...cpu.trace, this.entry];
  }

  static sleep(cpu, guest, place) {
    guest.place = place;
    cpu.current = null;
  }

  wake(c, cpu, t) {
    const guest = this.guests[t];
    if (guest.home === c || this.wrong === "wakes-where-it-is") {
      guest.place = `Ready(${c})`;
      cpu.ready = [...cpu.ready, t];
    } else {
      guest.place = `Hand(${c})`;
      cpu.hand = t;
    }
  }

  release(c, cpu, buffer) {
    const [first, ...behind] = buffer.sleepers;
    buffer.sleepers = behind;
    buffer.owner = first === undefined || this.wrong === "release-frees-the-lock" ? null : first;
    if (first !== undefined) this.wake(c, cpu, first);
  }

  signal(c, cpu, buffer, side) {
    const [first] = buffer.line[side];
    if (first === undefined || !buffer.waiting[side].includes(first) || !buffer.mayGo(side)) return;
    buffer.waiting = replaced(buffer.waiting, side, without(buffer.waiting[side], first));
    this.wake(c, cpu, first);
  }

  rests(c) {
    const cpu = this.cpus[c];
    if (this.blocks.get(`pending${c}`).threads.length) return false;
    if (this.halted(c)) return this.homes[c].every(isEnded);
    return cpu.current === null && cpu.ready.length === 0 && cpu.hand === null && cpu.section === null;
  }

  isQuiet() {
    return this.cpus.every((_, c) => this.rests(c));
  }

  buffers() {
    return [...this.blocks.values()].filter(block => block instanceof BufferBlock);
  }

  // The entries in the order that takes, at each point, the first trace whose next entry is its buffer's next; null where there is none.
  gathered() {
    const at = this.cpus.map(() => 0), due = new Map(), order = [];
    for (let left = this.cpus.reduce((sum, cpu) => sum + cpu.trace.length, 0); left > 0; left--) {
      const c = this.cpus.findIndex((cpu, i) => at[i] < cpu.trace.length && cpu.trace[at[i]][5] === (due.get(cpu.trace[at[i]][3]) ?? 0));
      if (c < 0) return null;
      const entry = this.cpus[c].trace[at[c]++];
      due.set(entry[3], entry[5] + 1);
      order.push(entry);
    }
    return order;
  }

  // The trace text, or why there is none.
  text() {
    const order = this.gathered(), buffers = this.buffers();
    if (order === null) return "error: NoOrder(6)\n";
    const version = order.some(entry => entry[4].includes(",")) ? 3 : order.some(entry => !["send", "recv"].includes(entry[2])) ? 2 : 1;
    const lines = [`mctower-trace ${version}`, `buffers ${buffers.length}`, ...buffers.map((buffer, b) => `cap ${b} ${buffer.capacity}`),
      ...order.map(entry => `e ${entry.join(" ")}`), ...buffers.map((buffer, b) => ["left", b, ...buffer.items.map(spelledMessage)].join(" ")), "end"];
    return lines.map(line => `${line}\n`).join("");
  }

  // The state lines.
  states() {
    const lines = [...this.cpus.map((_, c) => `cpu ${c} ${this.halted(c) ?? "live"}`), ...this.guests.map((guest, t) => `thread ${t} ${guest.place}`),
      `quiet ${this.isQuiet() ? "yes" : "no"}`];
    return lines.map(line => `${line}\n`).join("");
  }
}
