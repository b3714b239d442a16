"use strict";
// Judges a trace text line by line, as `mctower check` does, to say what is expected where the program says no: what plans/judging.py does. It decides
// nothing: its words are shown where the proved program names the same line for the same reason.

const MOST_WORDS = 8; // fixed by the format
const TRACE_MOST = {
  buffers: LIMITS.BUFFERS, capacity: LIMITS.CAPACITY, cpus: LIMITS.CPUS, threads: LIMITS.THREADS, entries: LIMITS.ENTRIES, words: MOST_WORDS,
};
const TRACE_HEADS = ["mctower-trace 1", "mctower-trace 2", "mctower-trace 3"];
// Each kind of entry, by how it counts; whether its value is a message; and those of the first version.
const ENTRY_GROUPS = { send: "sends", sendc: "sends", recv: "receives", recvc: "receives", close: "closes" };
const HAS_MESSAGE = { send: true, recv: true, sendc: true }, FIRST_KINDS = ["send", "recv"];

// The first fault of a text: the reason that `mctower check` names, and what is told beside it.
class TraceFault extends Error {
  constructor(reason, why) {
    super(why);
    this.reason = reason;
  }
}
const misspelled = why => new TraceFault("Spelling", why);

// A piece of a text as messages show it: cut, and without a character that cannot be seen.
function shownPiece(text) {
  const cut = text.length <= 40 ? text : `${text.slice(0, 40)}..`, named = { "\t": "\\t", "\r": "\\r", "\n": "\\n" };
  return cut.replace(/[\p{C}\p{Zl}\p{Zp}]/gu, letter => named[letter] ?? `\\x${letter.codePointAt(0).toString(16).padStart(2, "0")}`);
}
const isBelow = (digits, bound) => NUMBER.test(digits) && BigInt(digits) < bound;

// The numbers that pieces spell: `wanted` has of each its name, the least and the bound that it is below.
function numbersOf(pieces, wanted) {
  pieces.forEach((piece, i) => {
    if (!NUMBER.test(piece)) throw misspelled(`"${shownPiece(piece)}" is not a number: expected the ${wanted[i][0]}, in digits without a leading zero`);
  });
  pieces.forEach((piece, i) => {
    const [name, least, bound] = wanted[i], isWithin = isBelow(piece, BigInt(bound)) && Number(piece) >= least;
    if (!isWithin) throw new TraceFault("Range", `the ${name} is ${shownPiece(piece)}: expected ${least} to ${bound - 1}`);
  });
  return pieces.map(Number);
}

function piecesOf(line, names) {
  const pieces = line.split(" ");
  if (pieces.length !== names.length) throw misspelled(`the line has ${pieces.length} words: expected ${names.join(" ")}, with one space between two`);
  return pieces;
}

// Refuses a line that does not begin with these words.
function holdToWords(pieces, words) {
  words.forEach((word, i) => {
    if (pieces[i] !== word) throw misspelled(`expected ${word}, but found "${shownPiece(pieces[i])}"`);
  });
}

// Refuses a message of too many words, or with one that is too large.
function holdToRange(value) {
  const words = value === "-" ? [] : value.split(","), large = words.find(word => !isBelow(word, 2n ** 64n));
  if (words.length > TRACE_MOST.words) throw new TraceFault("Range", `the message has ${words.length} words: at most ${TRACE_MOST.words}`);
  if (large !== undefined) throw new TraceFault("Range", `${shownPiece(large)} is no word of 64 bits: at most ${2n ** 64n - 1n}`);
}

// What a buffer holds after the entries so far, and how many there were of each call.
class Contents {
  constructor(capacity) {
    Object.assign(this, { capacity, items: [], isClosed: false, effects: 0, counts: { sends: 0, receives: 0, closes: 0 } });
  }

  // What an entry does, or why it may not stand here.
  takeEffect(b, kind, value, op, pos) {
    const group = ENTRY_GROUPS[kind], due = this.counts[group], number = what => `the number of ${what} of buffer ${b} before it`;
    const missing = `the op is ${op}: expected ${this.effects}, ${number("entries")}. Is one missing, or out of its place?`;
    if (op !== this.effects) throw new TraceFault("Op", missing);
    if (pos !== due) throw new TraceFault("Pos", `the pos is ${pos}: expected ${due}, ${number(group)}`);
    if (kind === "send" && this.isClosed) throw new TraceFault("CloseState", `buffer ${b} is closed: a send finds that as sendc`);
    if (kind.endsWith("c") && !this.isClosed) throw new TraceFault("CloseState", `no close of buffer ${b} stands before it`);
    if (kind === "send") this.put(b, value);
    if (kind === "recv") this.take(b, value);
    if (kind === "recvc" && this.items.length) throw new TraceFault("NotEmpty", `buffer ${b} still holds ${this.items.join(" ")}: that is received first`);
    this.isClosed ||= kind === "close";
    this.effects++;
    this.counts[group]++;
  }

  put(b, value) {
    if (this.items.length === this.capacity) throw new TraceFault("Full", `buffer ${b} is full: its capacity is ${this.capacity}`);
    this.items.push(value);
  }

  take(b, value) {
    if (!this.items.length) throw new TraceFault("EmptyTake", `buffer ${b} holds nothing`);
    if (value !== this.items[0]) throw new TraceFault("WrongValue", `the first message of buffer ${b} is ${this.items[0]}`);
    this.items.shift();
  }
}

// Takes a text line by line. `want` is the method for the next line, or null behind the last.
class Judge {
  constructor() {
    Object.assign(this, { want: this.head, wanted: TRACE_HEADS[0], version: 0, count: 0, buffers: [], left: 0, entries: 0, lowest: 1 });
  }

  expect(want, wanted) {
    Object.assign(this, { want, wanted });
  }

  head(line) {
    const wanted = line.startsWith("mctower-trace ") ? "expected a version from 1 to 3" : "expected mctower-trace and a version";
    if (!TRACE_HEADS.includes(line)) throw misspelled(`the head is "${shownPiece(line)}": ${wanted}`);
    this.version = TRACE_HEADS.indexOf(line) + 1;
    this.expect(this.bufferCount, "buffers n");
  }

  bufferCount(line) {
    const pieces = piecesOf(line, ["buffers", "n"]);
    holdToWords(pieces, ["buffers"]);
    [this.count] = numbersOf(pieces.slice(1), [["number of buffers", 1, TRACE_MOST.buffers + 1]]);
    this.expect(this.capacity, "cap 0 k");
  }

  capacity(line) {
    const b = String(this.buffers.length), pieces = piecesOf(line, ["cap", b, "k"]);
    holdToWords(pieces, ["cap", b]);
    const [capacity] = numbersOf(pieces.slice(2), [["capacity", 1, TRACE_MOST.capacity + 1]]);
    this.buffers.push(new Contents(capacity));
    if (this.buffers.length === this.count) this.expect(this.entryOrLeft, "an entry or left 0");
    else this.wanted = `cap ${this.buffers.length} k`;
  }

  entryOrLeft(line) {
    if (line.split(" ")[0] === "e") this.entry(line);
    else this.contents(line);
  }

  entry(line) {
    const [, cpu, thread, kind, buffer, value, op, pos] = piecesOf(line, ["e", "cpu", "thread", "kind", "buffer", "value", "op", "pos"]);
    this.holdToKind(kind);
    if (HAS_MESSAGE[kind]) this.holdToMessage(value);
    else if (value !== "-") throw misspelled(`the value of ${kind} is "${shownPiece(value)}": expected -`);
    const { cpus, threads, entries } = TRACE_MOST;
    const bounds = [["CPU", 0, cpus], ["thread", 0, threads], ["buffer", 0, this.count], ["op", 0, entries], ["pos", 0, entries]];
    const [, , b, number, position] = numbersOf([cpu, thread, buffer, op, pos], bounds);
    holdToRange(value);
    if (++this.entries > TRACE_MOST.entries) throw new TraceFault("Range", `a text has at most ${TRACE_MOST.entries} entries`);
    this.lowest = Math.max(this.lowest, value.includes(",") ? 3 : FIRST_KINDS.includes(kind) ? 1 : 2);
    this.buffers[b].takeEffect(b, kind, value, number, position);
  }

  holdToKind(kind) {
    const known = this.version === 1 ? FIRST_KINDS : Object.keys(ENTRY_GROUPS);
    const hint = Object.hasOwn(ENTRY_GROUPS, kind) ? ": it needs the head mctower-trace 2" : nearSaid(kind, known);
    if (!known.includes(kind)) throw misspelled(`"${shownPiece(kind)}" is no kind of a text of version ${this.version}${hint}`);
  }

  holdToMessage(value) {
    if (value.includes(",") && this.version < 3) throw misspelled(`${shownPiece(value)} is a message of several words: it needs the head mctower-trace 3`);
    const strange = value.split(",").find(word => !NUMBER.test(word));
    if (strange !== undefined) throw misspelled(`"${shownPiece(strange)}" is not a word of a message: expected a number, in digits without a leading zero`);
  }

  contents(line) {
    this.want = this.contents;
    const [word, number, ...values] = line.split(" "), hint = word === "e" ? " (an entry stands in front of all left lines)" : "";
    if (word !== "left" || number !== String(this.left)) throw misspelled(`expected left ${this.left}, but found "${shownPiece(line)}"${hint}`);
    values.forEach(value => this.holdToMessage(value));
    values.forEach(holdToRange);
    const { items } = this.buffers[this.left];
    if (values.join(" ") !== items.join(" ")) throw new TraceFault("Left", `expected ${["left", this.left, ...items].join(" ")}, what the entries leave`);
    this.left++;
    this.wanted = `left ${this.left}`;
    if (this.left === this.count) this.expect(this.end, "end");
  }

  end(line) {
    if (line !== "end") throw misspelled(`expected end, but found "${shownPiece(line)}"`);
    const [is, can] = [TRACE_HEADS[this.version - 1], TRACE_HEADS[this.lowest - 1]];
    if (this.lowest < this.version) throw new TraceFault("Version", `the head is ${is}, and ${can} can spell this text: that has to be the head`);
    this.expect(null, "");
  }

  // Takes a line. What stands behind the last line feed is no line.
  take(line, isLast) {
    if (this.want === null) {
      if (!isLast || line) throw misspelled("nothing may follow the line end");
    } else if (isLast) {
      throw misspelled(line ? `the line does not end with a line feed: ${shownPiece(line)}` : `expected ${this.wanted}, but the text ends`);
    } else if (line.endsWith("\r")) {
      throw misspelled("the line ends with a carriage return: expected only a line feed, as in files of Unix");
    } else this.want(line);
  }
}

// The first fault of a text: {line, reason, why}; null where `mctower check` says yes.
function faultOf(text) {
  const judge = new Judge(), lines = text.split("\n");
  for (const [i, line] of lines.entries()) {
    try {
      judge.take(line, i === lines.length - 1);
    } catch (fault) {
      if (!(fault instanceof TraceFault)) throw fault;
      return { line: i + 1, reason: fault.reason, why: fault.message };
    }
  }
  return null;
}
