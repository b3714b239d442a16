"use strict";
// A law of the reader's own: a condition on what the panels show, such as `b0.owner = none implies b0.asleep = 0`, read by a parser of its own.

const LAW_HELP = `Names: b0 is buffer 0, t0 thread 0, c0 CPU 0.
  b0.holds b0.capacity b0.asleep b0.receivers b0.senders b0.receive b0.send   how many: messages held, room, threads
      asleep for the buffer, waiting to receive or to send, in the receive or the send line
  b0.owner c0.runs c0.hand        a thread, as t1, or none
  c0.ready c0.pending             how many threads
  t0.place                        Running Ready Hand Pending LockSleeper WaitRecv WaitSend Ended
  t0.line t0.home t0.r0 .. t0.r7  numbers
  c0.doing                        rests waits inside
  c0.state                        live AllEnded TraceFull
  b0.closed quiet effects         closed and quiet are true or false; effects: how many calls took effect
Signs: = != < <= > >= + -  not and or implies  ( )
Example: not (t0.place = WaitRecv and b0.holds > 0 and b0.owner = none)`;

// What is wrong with a law, and at which letter it begins, counted from 0.
const MOST_LAW = 1000; // letters
class LawFault extends Error {
  constructor(words, at) {
    super(words);
    this.at = at;
  }
}

const LAW_WORDS = {
  place: ["Running", "Ready", "Hand", "Pending", "LockSleeper", "WaitRecv", "WaitSend", "Ended"], doing: ["rests", "waits", "inside"],
  state: ["live", "AllEnded", "TraceFull"],
};
const asNumber = read => ({ type: "number", read: kernel => BigInt(read(kernel)) });
const ofKind = (type, read) => ({ type, read });
const bufferOf = b => kernel => kernel.blocks.get(`buffer${b}`);

// What a name tells of a buffer, a thread or a CPU, by its part behind the point.
const PARTS_OF = {
  b: b => {
    const buffer = bufferOf(b), many = list => asNumber(kernel => list(buffer(kernel)).length);
    return {
      holds: many(({ items }) => items), asleep: many(({ sleepers }) => sleepers), receivers: many(({ waiting }) => waiting[RECEIVERS]),
      senders: many(({ waiting }) => waiting[SENDERS]), receive: many(({ line }) => line[RECEIVERS]), send: many(({ line }) => line[SENDERS]),
      capacity: asNumber(kernel => buffer(kernel).capacity), owner: ofKind("thread", kernel => buffer(kernel).owner),
      closed: ofKind("truth", kernel => buffer(kernel).closed),
    };
  },
  t: t => ({
    place: ofKind("place", kernel => kernel.guests[t].place.split("(")[0]), line: asNumber(kernel => kernel.guests[t].line), home: asNumber(kernel => kernel.guests[t].home),
    ...Object.fromEntries(counted(REGISTERS).map(r => [`r${r}`, asNumber(kernel => kernel.guests[t].registers[r])])),
  }),
  c: c => ({
    runs: ofKind("thread", kernel => kernel.cpus[c].current), hand: ofKind("thread", kernel => kernel.cpus[c].hand),
    ready: asNumber(kernel => kernel.cpus[c].ready.length), pending: asNumber(kernel => kernel.blocks.get(`pending${c}`).threads.length),
    doing: ofKind("doing", ({ cpus }) => (cpus[c].section === null ? "rests" : cpus[c].block === null ? "waits" : "inside")),
    state: ofKind("state", kernel => kernel.halted(c) ?? "live"),
  }),
};
const WHOLE = { quiet: ofKind("truth", kernel => kernel.isQuiet()), effects: asNumber(kernel => kernel.cpus.reduce((sum, { trace }) => sum + trace.length, 0)) };

const COMPARISONS = {
  "=": (x, y) => x === y, "!=": (x, y) => x !== y, "<": (x, y) => x < y, "<=": (x, y) => x <= y, ">": (x, y) => x > y, ">=": (x, y) => x >= y,
};
const JOINTS = { implies: (x, y) => !x || y, or: (x, y) => x || y, and: (x, y) => x && y };

// The pieces of a law, each with the letter at which it begins.
function lawPieces(text) {
  if (text.length > MOST_LAW) throw new LawFault(`a law has at most ${MOST_LAW} letters`, MOST_LAW);
  const pieces = [], piece = /\s*(?:(\d+)|([A-Za-z][A-Za-z0-9]*(?:\.[A-Za-z0-9]*)?)|(!=|<=|>=|[=<>()+-]))/y;
  while (/\S/.test(text.slice(piece.lastIndex))) {
    const from = piece.lastIndex, found = piece.exec(text);
    if (!found) throw new LawFault(`“${text.slice(from).trim()[0]}” is no sign of a law`, from + text.slice(from).search(/\S/));
    pieces.push({ text: found[0].trim(), at: piece.lastIndex - found[0].trim().length, isNumber: found[1] !== undefined, isName: found[2] !== undefined });
  }
  return pieces;
}

class LawReader {
  constructor(text, plan) {
    Object.assign(this, { pieces: lawPieces(text), next: 0, end: text.length, plan, usesHistory: false });
  }

  // The whole law: a condition, and nothing behind it.
  law() {
    if (this.pieces.length === 0) throw new LawFault("a condition is expected, as b0.holds <= b0.capacity", 0);
    const read = this.truth(this.joined("implies"));
    if (this.here().text) throw new LawFault(`“${this.here().text}” is not expected here: and, or, implies or the end is`, this.here().at);
    return read;
  }

  here() {
    return this.pieces[this.next] ?? { text: "", at: this.end };
  }

  take(...words) {
    return words.includes(this.here().text) ? this.pieces[this.next++] : null;
  }

  truth(node) {
    if (node.type !== "truth") throw new LawFault(`${node.words} is a ${node.type}, and a condition is expected, as ${node.words} = ..`, node.at);
    return node.read;
  }

  // Conditions that are joined: by implies, which binds least, then or, then and.
  joined(word) {
    const inner = { implies: () => this.joined("or"), or: () => this.joined("and"), and: () => this.denied() }[word], first = inner();
    if (!this.take(word)) return first;
    const [one, other, join] = [this.truth(first), this.truth(this.joined(word)), JOINTS[word]];
    return { ...first, read: kernel => join(one(kernel), other(kernel)) };
  }

  denied() {
    const sign = this.take("not");
    if (!sign) return this.compared();
    const inner = this.truth(this.denied());
    return { type: "truth", words: "not ..", at: sign.at, read: kernel => !inner(kernel) };
  }

  compared() {
    const one = this.sum(), sign = this.take(...Object.keys(COMPARISONS));
    if (!sign) return one;
    const other = this.sum(), isOrder = sign.text.length > 1 ? sign.text !== "!=" : sign.text !== "=", types = [one.type, other.type];
    if (types[0] !== types[1]) throw new LawFault(`${one.words} is a ${types[0]} and ${other.words} is a ${types[1]}: these are not compared`, one.at);
    if (isOrder && types[0] !== "number") throw new LawFault(`${sign.text} is for numbers, and ${one.words} is a ${types[0]}: use = or !=`, sign.at);
    const compare = COMPARISONS[sign.text];
    return { type: "truth", words: `${one.words} ${sign.text} ${other.words}`, at: one.at, read: kernel => compare(one.read(kernel), other.read(kernel)) };
  }

  sum() {
    let one = this.value();
    for (let sign = this.take("+", "-"); sign; sign = this.take("+", "-")) one = this.added(one, sign, this.value());
    return one;
  }

  added(one, sign, other) {
    for (const { type, words, at } of [one, other]) if (type !== "number") throw new LawFault(`${words} is a ${type}, and ${sign.text} is for numbers`, at);
    const isSum = sign.text === "+";
    return { type: "number", words: "a sum", at: one.at, read: kernel => (isSum ? one.read(kernel) + other.read(kernel) : one.read(kernel) - other.read(kernel)) };
  }

  value() {
    const piece = this.here(), { text, at } = piece;
    this.next++;
    if (piece.isNumber) return { type: "number", words: text, at, read: () => BigInt(text) };
    if (text === "(") return this.inBrackets();
    if (!piece.isName) throw new LawFault(text ? `a name or a number is expected, and “${text}” stands here` : "a name or a number is expected at the end", at);
    return { words: text, at, ...this.named(text, at) };
  }

  inBrackets() {
    const inner = this.joined("implies");
    if (!this.take(")")) throw new LawFault("“)” is expected", this.here().at);
    return inner;
  }

  // What a name or a word tells.
  named(text, at) {
    if (Object.hasOwn(WHOLE, text)) {
      this.usesHistory ||= text === "effects";
      return WHOLE[text];
    }
    if (text === "none" || text === "true" || text === "false") return ofKind(text === "none" ? "thread" : "truth", () => ({ none: null, true: true, false: false })[text]);
    const kind = Object.keys(LAW_WORDS).find(one => LAW_WORDS[one].includes(text));
    return kind ? ofKind(kind, () => text) : this.numbered(text, at);
  }

  // A buffer, a thread or a CPU of the plan, by its number; a thread may stand alone.
  numbered(text, at) {
    const [, letter, digits, part] = /^([btc])(\d+)(?:\.(\w*))?$/.exec(text) ?? [], many = { b: this.plan.buffers, t: this.plan.threads, c: counted(this.plan.cpus) }[letter]?.length;
    if (many === undefined) throw new LawFault(`“${text}” is no name: names are as b0.holds, t0.place, c0.runs, quiet`, at);
    if (Number(digits) >= many) throw new LawFault(`“${letter}${digits}”: this plan has ${letter}0 to ${letter}${many - 1}`, at);
    if (letter === "t" && part === undefined) return ofKind("thread", () => Number(digits));
    const parts = PARTS_OF[letter](Number(digits));
    if (!Object.hasOwn(parts, part ?? "")) throw new LawFault(`“${text}”: behind ${letter}${digits}. stands one of ${Object.keys(parts).join(", ")}`, at);
    return parts[part];
  }
}

// A law of the reader's own, {text, holds(kernel), usesHistory}, from its text. It throws a LawFault where the text is none.
function ownLaw(text, plan) {
  const reader = new LawReader(text, plan), holds = reader.law();
  holds(new Kernel(plan));
  return { text: text.trim(), holds, usesHistory: reader.usesHistory };
}

// The test of a kernel that a search for a broken law of the reader's own asks.
function brokenBy(text, plan) {
  const { holds } = ownLaw(text, plan);
  return kernel => !holds(kernel);
}

// In which states of a run a law of the reader's own is broken.
class LawWatch {
  constructor(law, plan, wrong) {
    Object.assign(this, { law, plan, wrong });
    this.begin();
  }

  begin() {
    Object.assign(this, { kernel: new Kernel(this.plan, this.wrong), taken: [] });
    this.broken = [!this.law.holds(this.kernel)];
  }

  // For the state before the first of these steps and behind each of them: whether the law is broken there.
  follow(steps) {
    if (this.taken.length > steps.length || this.taken.some((c, i) => c !== steps[i])) this.begin();
    for (const c of steps.slice(this.taken.length)) {
      this.kernel.step(c);
      this.taken.push(c);
      this.broken.push(!this.law.holds(this.kernel));
    }
    return this.broken;
  }
}
