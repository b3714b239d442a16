"use strict";
// What holds in each state of the proved program, looked up in a state of the twin, and why it does not where it is broken: plans/laws.py in JavaScript.

const sleepsInVain = (buffer, side) => buffer.line[side].length > 0 && buffer.waiting[side].includes(buffer.line[side][0]) && buffer.mayGo(side);
const tracesOf = kernel => kernel.cpus.map(cpu => cpu.trace);

// ---- where threads stand

function standingAt(lock, block) {
  const number = /\d+/.exec(lock)[0];
  if (block instanceof PendingBlock) return block.threads.map(t => [t, `pending at CPU ${number}`]);
  const waiting = (side, does) => block.waiting[side].map(t => [t, `waiting to ${does} buffer ${number}`]);
  return [...block.sleepers.map(t => [t, `asleep for buffer ${number}`]), ...waiting(RECEIVERS, "receive from"), ...waiting(SENDERS, "send to")];
}

// Where each thread stands: a list of places in words for each. A thread that has ended is at a place of its own.
function standing(kernel) {
  const found = kernel.guests.map(() => []), put = ([t, words]) => { if (t !== null) found[t].push(words); };
  kernel.cpus.forEach(({ current, ready, hand }, c) => {
    [[current, `running on CPU ${c}`], ...ready.map(t => [t, `ready at CPU ${c}`]), [hand, `in the hand of CPU ${c}`]].forEach(put);
  });
  for (const [lock, block] of kernel.blocks) standingAt(lock, block).forEach(put);
  kernel.guests.forEach((guest, t) => { if (isEnded(guest)) put([t, "ended"]); });
  return found;
}

function twoPlaces(kernel) {
  const all = standing(kernel), t = all.findIndex(places => places.length !== 1);
  return t < 0 ? null : all[t].length ? `t${t} is ${all[t].join(" and ")}` : `t${t} stands nowhere`;
}

// A thread that runs, is ready or is pending at a CPU has its home there; one in its hand has not.
function astray(kernel) {
  const home = t => kernel.guests[t].home;
  for (const [c, { current, ready }] of kernel.cpus.entries()) {
    const running = current === null ? [] : [current], pending = kernel.blocks.get(`pending${c}`).threads;
    const own = [[running, "runs on"], [ready, "is ready at"], [pending, "is pending at"]].flatMap(([threads, does]) => threads.map(t => [t, does]));
    const stray = own.find(([t]) => home(t) !== c);
    if (stray) return `t${stray[0]} ${stray[1]} CPU ${c}, and its home is CPU ${home(stray[0])}`;
  }
  const c = kernel.cpus.findIndex((cpu, at) => cpu.hand !== null && home(cpu.hand) === at);
  return c < 0 ? null : `t${kernel.cpus[c].hand} is in the hand of CPU ${c}, its home`;
}

function twoInside(kernel) {
  const inside = kernel.cpus.map(cpu => (cpu.block === null ? null : cpu.section.lock));
  const lock = inside.find((one, c) => one !== null && inside.includes(one, c + 1));
  if (lock === undefined) return null;
  const name = lock.startsWith("buffer") ? `buffer ${lock.slice(6)}` : `CPU ${lock.slice(7)}'s pending queue`;
  return `${inside.flatMap((one, c) => (one === lock ? [`CPU ${c}`] : [])).join(" and ")} are inside the spin lock of ${name}`;
}

// The stages of a call between its AcqQ and its RelQ, in which its thread is the buffer's owner, but where it sleeps until the buffer is handed over.
const OWNER_STAGES = ["Enter", "Shut", "Try", "Wait", "Other", "Own", "RelQ"];

// The number of the buffer of which a thread has to be the owner, or null.
const worksOn = guest => (OWNER_STAGES.includes(guest.stage) && !guest.place.startsWith("LockSleeper") ? guest.call().buffer : null);

function notOwner(kernel) {
  const owner = guest => kernel.blocks.get(`buffer${worksOn(guest)}`).owner;
  const t = kernel.guests.findIndex((guest, own) => worksOn(guest) !== null && owner(guest) !== own);
  if (t < 0) return null;
  const other = owner(kernel.guests[t]);
  return `t${t} is between AcqQ and RelQ at buffer ${worksOn(kernel.guests[t])}, ${other === null ? "which is free" : `whose owner is t${other}`}`;
}

// ---- who sleeps

// What of a buffer lets a call of a side go on, in words.
function allowing(buffer, side) {
  if (buffer.closed) return "is closed";
  return side === RECEIVERS ? `holds ${buffer.items.map(spelledMessage).join(" ")}` : "has room";
}

function lostWakeUp(kernel) {
  for (const [b, buffer] of kernel.buffers().entries()) {
    const side = buffer.owner === null ? [RECEIVERS, SENDERS].find(one => sleepsInVain(buffer, one)) : undefined, line = ["receive", "send"][side];
    if (side !== undefined) return `buffer ${b} ${allowing(buffer, side)}, is free, and t${buffer.line[side][0]}, first in its ${line} line, sleeps`;
  }
  return null;
}

function freeSleeper(kernel) {
  const b = kernel.buffers().findIndex(buffer => buffer.owner === null && buffer.sleepers.length > 0);
  return b < 0 ? null : `buffer ${b} is free, and t${kernel.buffers()[b].sleepers[0]} sleeps until it is handed over`;
}

// Whether a thread that has not ended stands at a call that its buffer allows, or at none.
function couldGoOn(kernel, guest) {
  if (isEnded(guest)) return false;
  const call = guest.call();
  return call === null || guest.instruction()[0] === "close" || guest.stage === "Returns" || kernel.blocks.get(`buffer${call.buffer}`).mayGo(call.side);
}

function notStill(kernel) {
  const t = kernel.isQuiet() ? kernel.guests.findIndex(guest => couldGoOn(kernel, guest)) : -1;
  if (t < 0) return null;
  const guest = kernel.guests[t], call = guest.call(), isFree = call === null || guest.instruction()[0] === "close";
  const because = isFree ? "" : ` and buffer ${call.buffer} ${allowing(kernel.blocks.get(`buffer${call.buffer}`), call.side)}`;
  return `no CPU has anything to do, but t${t} stands at “${guest.instruction().join(" ")}”${because}`;
}

// ---- calls that took effect. An entry is [cpu, thread, kind, buffer, value, op, position].

const CALL_NAMES = { send: "send", sendc: "send", recv: "receive", recvc: "receive", close: "close" };
const namedCall = ([, t, kind, , value]) => `t${t}'s ${CALL_NAMES[kind]}${value === "-" ? "" : ` of ${value}`}`;

// The calls that took effect on each buffer, in the order of their op.
function orderOf(traces, buffers) {
  const entries = traces.flat();
  return counted(buffers).map(b => entries.filter(entry => entry[3] === b).sort((x, y) => x[5] - y[5]));
}

// What is in a list more often than in another, each as often as it is more.
function surplus(list, other) {
  const left = [...other];
  return list.filter(one => {
    const at = left.indexOf(one);
    if (at >= 0) left.splice(at, 1);
    return at < 0;
  });
}

// What is wrong with values that were sent, received and left, in words.
function amiss(sent, there) {
  const lost = surplus(sent, there), more = surplus(there, sent);
  const [doubled, foreign] = [true, false].map(wasSent => more.filter(value => sent.includes(value) === wasSent));
  const told = [[lost, "lost"], [doubled, "doubled"], [foreign, "never sent"]].filter(([some]) => some.length);
  return told.map(([some, words]) => `${some.join(" ")} ${words}`).join(", ") || "out of order";
}

function notTheSame(effects, buffer, b) {
  const [sent, received] = ["send", "recv"].map(kind => effects.filter(entry => entry[2] === kind).map(entry => entry[4]));
  const left = buffer.items.map(spelledMessage);
  if (sent.length === received.length + left.length && [...received, ...left].every((value, i) => value === sent[i])) return null;
  return `buffer ${b}: sent [${sent.join(" ")}], received [${received.join(" ")}], left [${left.join(" ")}]: ${amiss(sent, [...received, ...left])}`;
}

// A call that took effect before one which had drawn an earlier position.
function outOfTurn(effects, _, b) {
  const counts = { send: 0, receive: 0, close: 0 };
  for (const entry of effects) {
    const due = counts[CALL_NAMES[entry[2]]]++;
    if (entry[6] !== due) return `buffer ${b}: ${namedCall(entry)} has position ${entry[6]} in its line, and went where position ${due} is due`;
  }
  return null;
}

// Why a call cannot have taken effect so at a buffer that holds so many messages, or null.
function whyNot(kind, held, closed, capacity) {
  if (kind === "send") return closed ? "it is closed" : held >= capacity ? "it is full" : null;
  if (kind === "recv") return held ? null : "it is empty";
  if (kind === "close") return null;
  return !closed ? "it is open" : kind === "recvc" && held ? `it still holds ${held}` : null;
}

function falseAnswer(effects, buffer, b) {
  let held = 0, closed = false;
  for (const entry of effects) {
    const kind = entry[2], why = whyNot(kind, held, closed, buffer.capacity);
    if (why) return `buffer ${b}: ${namedCall(entry)} ${kind === "sendc" || kind === "recvc" ? "finds it closed" : "goes through"}, and ${why}`;
    held += kind === "send" ? 1 : kind === "recv" ? -1 : 0;
    closed ||= kind === "close";
  }
  return closed === buffer.closed ? null : `buffer ${b}: ${buffer.closed ? "it is closed" : "it is open"}, and no call made it so`;
}

function misnumbered(effects, _, b) {
  if (effects.every((entry, number) => entry[5] === number)) return null;
  const twin = effects.findIndex((entry, i) => i + 1 < effects.length && entry[5] === effects[i + 1][5]), one = effects.at(twin);
  return `buffer ${b}: ${namedCall(one)} has op ${one[5]}${twin < 0 ? ", and one before it is missing" : `, and so has ${namedCall(effects[twin + 1])}`}`;
}

// Whether the order after a step of a CPU is the order before it, and at most one call more, which is of that CPU.
function hasGrown(earlier, later, c) {
  const more = later.flatMap((effects, b) => effects.slice(earlier[b].length));
  return more.length <= 1 && more.every(entry => entry[0] === c) && earlier.every((effects, b) => effects.every((entry, i) => later[b][i] === entry));
}

// A law on effects, of one that a buffer's effects may break.
const ofEach = fault => (kernel, order) => {
  for (const [b, buffer] of kernel.buffers().entries()) {
    const why = fault(order[b], buffer, b);
    if (why) return why;
  }
  return null;
};

// `last` is {earlier, cpu}: the order of effects before the step that led here, and the CPU that took it; null where no step did.
function notGrown(kernel, order, last) {
  const grown = last === null || hasGrown(last.earlier, order, last.cpu);
  return ofEach(misnumbered)(kernel, order) ?? (grown ? null : "in this step the order got a call that is not at its end, or not of the CPU that stepped");
}

// The laws in the order in which pages tell them: each says why it is broken, or null.
const LAWS = new Map([["one place for each thread", twoPlaces], ["each thread runs at home", astray], ["one CPU inside a lock", twoInside],
  ["only the owner works on a buffer", notOwner], ["no lost wake-up", lostWakeUp], ["nobody sleeps at a free lock", freeSleeper],
  ["sent = received ++ left", ofEach(notTheSame)], ["callers in their order", ofEach(outOfTurn)], ["each answer fits its buffer", ofEach(falseAnswer)],
  ["the order only grows", notGrown], ["quiet only if nobody can go on", notStill]]);

// The laws that do not hold in a state, each with why.
function faultsIn(kernel, last = null) {
  const order = orderOf(tracesOf(kernel), kernel.buffers().length);
  return [...LAWS].flatMap(([law, fault]) => {
    const why = fault(kernel, order, last);
    return why === null ? [] : [[law, why]];
  });
}
