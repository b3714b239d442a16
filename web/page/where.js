"use strict";
// What is wrong with a plan, a schedule or a trace text, and where: beside the line of the proved program, which alone decides. Each answer is
// {line, text, from, piece, says}: the line from 1 on and what stands in it, the piece that is wrong and from where in the line it stands, and what is
// allowed there. What isn't known is left out.

const PLAN_KEYS = {
  cpus: `an integer from 1 to ${LIMITS.CPUS}: how many CPUs there are`, trace: `an integer from 1 to ${LIMITS.TRACE}: how many entries each CPU may trace`,
  buffers: `a list of 1 to ${LIMITS.BUFFERS} integers, each from 1 to ${LIMITS.CAPACITY}: the capacities of the buffers`,
  lock: 'the text "ticket" or "grant"; without the key it is "grant"', thread: `1 to ${LIMITS.THREADS} tables [[thread]]`,
};
const MOST_LINES = 256; // fixed by the format
const THREAD_KEYS = { cpu: "an integer from 0 to the number of CPUs less 1: the thread's home", program: `a list of 1 to ${MOST_LINES} texts, an instruction each` };

// Each instruction: its pieces, of which the last may be left out if it has a question mark.
const INSTRUCTIONS = {
  set: ["rD", "n"], add: ["rD", "rS"], sub: ["rD", "rS"], jnz: ["rS", "k"], send: ["b", "rS", "k?"], sendm: ["b", "w", "k?"], recv: ["b", "rD", "k?"],
  recvm: ["b", "k?"], close: ["b"], yield: [], exit: [],
};
const PIECES = {
  r: "a register is r0 to r7", n: "a number is 0 to 18446744073709551615, in digits without a leading zero", b: `a buffer is a number from 0 to ${LIMITS.BUFFERS - 1}`,
  w: `a number of words is 1 to ${MOST_WORDS}`, k: "a target is a number, the line of an instruction of this program, counted from 0",
};
const PIECE_LIMITS = { n: [0n, 2n ** 64n - 1n], b: [0n, BigInt(LIMITS.BUFFERS - 1)], w: [1n, BigInt(MOST_WORDS)] };

const TRACE_REASONS = {
  Spelling: "the line is no spelling of a line that may stand here: single spaces, numbers without leading zeros, lines that end in a line feed",
  Range: `a number is out of its range, a value has more than eight words, or there are more than ${LIMITS.ENTRIES.toLocaleString("en")} entries`,
  Op: "op is not the number of entries of that buffer before it", Pos: "pos is not the number of entries of that buffer before it that are counted with its kind",
  CloseState: "a send on a closed buffer, or a sendc or recvc on an open one", Full: "a send, and the buffer holds its capacity",
  EmptyTake: "a receive, and the buffer holds nothing", NotEmpty: "a recvc, and the buffer holds something", WrongValue: "a receive whose value is not the buffer's first",
  Left: "a left line whose values are not the buffer's items", Version: "the end of a text that a lower version than its head's can spell",
};
const OTHER_REASONS = {
  NoMemory: "memory ran out", NoThread: "no worker thread starts in a page: `threads` and `count` need the program itself", NoOrder: "no order keeps each trace",
  ReadFault: "the input could not be read", WriteFault: "the output could not be written",
};

// How many letters have to be changed, put in, left out or swapped with their neighbour to make one word of the other.
function distance(from, to) {
  const rows = [Array.from({ length: to.length + 1 }, (_, j) => j)];
  for (let i = 1; i <= from.length; i++) {
    rows.push([i]);
    for (let j = 1; j <= to.length; j++) {
      const same = from[i - 1] === to[j - 1] ? 0 : 1, isSwap = i > 1 && j > 1 && from[i - 1] === to[j - 2] && from[i - 2] === to[j - 1];
      rows[i].push(Math.min(rows[i - 1][j] + 1, rows[i][j - 1] + 1, rows[i - 1][j - 1] + same, isSwap ? rows[i - 2][j - 2] + 1 : Infinity));
    }
  }
  return rows[from.length][to.length];
}

// The words that are nearest to a word, if any is near.
const nearWords = (word, words) => words.filter(one => one !== word && distance(word.toLowerCase(), one) <= Math.max(1, Math.floor(one.length / 3)));
const nearSaid = (word, words) => (nearWords(word, words).length ? `; near it: ${nearWords(word, words).join(", ")}` : "");

function shapeOf(word) {
  const pieces = INSTRUCTIONS[word].map(piece => (piece.endsWith("?") ? `[${piece.slice(0, -1)}]` : piece));
  return [word, ...pieces].join(" ");
}

// What is wrong with a piece of an instruction, or null.
function pieceFault(shape, piece, lines) {
  const kind = shape[0];
  if (kind === "r") return /^r[0-7]$/.test(piece) ? null : PIECES.r;
  if (!NUMBER.test(piece)) return PIECES[kind];
  if (kind === "k") return BigInt(piece) < BigInt(lines) ? null : `${PIECES.k}; it has the lines 0 to ${lines - 1}`;
  const [low, high] = PIECE_LIMITS[kind];
  return BigInt(piece) >= low && BigInt(piece) <= high ? null : PIECES[kind];
}

// The first fault of an instruction: the piece, from where in it it stands, and what is allowed there.
function instructionFault(line, lines) {
  const [word, ...pieces] = line.split(" "), shape = Object.hasOwn(INSTRUCTIONS, word) ? INSTRUCTIONS[word] : null, words = Object.keys(INSTRUCTIONS);
  if (shape === null) return { from: 0, piece: word, says: `an instruction begins with one of ${words.join(", ")}${nearSaid(word, words)}` };
  const least = shape.filter(piece => !piece.endsWith("?")).length;
  if (pieces.length < least || pieces.length > shape.length) return { from: 0, piece: line, says: `it is written ${shapeOf(word)}, with one space between its pieces` };
  const at = pieces.findIndex((piece, i) => pieceFault(shape[i], piece, lines));
  return at < 0 ? null : { from: [word, ...pieces.slice(0, at), ""].join(" ").length, piece: pieces[at], says: `${pieceFault(shape[at], pieces[at], lines)} (${shapeOf(word)})` };
}

// A key in a table within a table, or in one of a list of tables.
function below(table, name) {
  const nodes = [...table.values()].flatMap(node => (node.kind === "array" ? node.value : [node]));
  return nodes.find(({ kind, value }) => kind === "table" && value.has(name))?.value.get(name);
}

class PlanPlaces {
  constructor(text) {
    this.text = text;
    this.top = readToml(text).value;
  }

  at(position, piece) {
    const { number, column, text } = lineOf(this.text, position), found = text.indexOf(piece, column - 1); // a table's place is that of its brackets
    return { line: number, text, from: found < 0 ? column - 1 : found, piece };
  }

  thread(t) {
    return this.top.get("thread").value[t].value;
  }

  // A key that is missing, of another kind, or out of its range.
  key(name, t) {
    const table = t === null ? this.top : this.thread(t), allowed = (t === null ? PLAN_KEYS : THREAD_KEYS)[name], node = table.get(name);
    if (node) return { ...this.at(node.keyAt ?? node.at, name), says: `${name} is ${allowed}` };
    const strays = [...table.keys()].filter(key => nearWords(key, [name]).length), near = table.get(strays[0]), lower = near ? undefined : below(table, name);
    const misplaced = lower ? "; this one stands below a header: put it above all headers" : "", ignored = near ? `; ${strays.join(", ")} is near it and is ignored` : misplaced;
    const where = near ? this.at(near.keyAt ?? near.at, strays[0]) : lower ? this.at(lower.keyAt, name) : t === null ? {} : this.head(t);
    return { ...where, says: `${t === null ? "the plan" : `thread ${t}`} has no key ${name}: ${allowed}${ignored}` };
  }

  // Where a thread's table begins.
  head(t) {
    const { at } = this.top.get("thread").value[t];
    return this.at(at, /^(\[\[.*?\]\]|\{|)/.exec(this.text.slice(at))[0]);
  }

  instruction(t, line) {
    const program = this.thread(t).get("program"), item = program.value[line];
    if (!item) return { ...this.at(program.keyAt, "program"), says: `program is ${THREAD_KEYS.program}; this one has ${program.value.length}` };
    const fault = instructionFault(item.value, program.value.length);
    return { ...this.at(item.at + 1 + (fault?.from ?? 0), fault?.piece ?? item.value), says: fault?.says };
  }

  // The first call of a thread whose buffer the plan has not.
  strayBuffer(t) {
    const count = this.top.get("buffers").value.length, called = ({ value }) => /^(send|sendm|recv|recvm|close) ([0-9]+)/.exec(value);
    const item = this.thread(t).get("program").value.find(one => Number(called(one)?.[2] ?? -1) >= count), [, word, buffer] = called(item);
    return { ...this.at(item.at + 1 + word.length + 1, buffer), says: `the plan has the buffers 0 to ${count - 1}` };
  }
}

// The keys of a plan that nobody reads: the line of each, and what may have been meant. Of a text that the proved program has taken.
function ignoredKeys(text) {
  const places = new PlanPlaces(text), note = (node, words) => ({ line: lineOf(text, node.keyAt ?? node.at).number, says: words });
  const meant = (key, known) => nearWords(key, Object.keys(known)).slice(0, 1).map(one => `. Is ${one} meant?`).join("");
  const strange = (table, known) => [...table].filter(([key]) => !Object.hasOwn(known, key));
  const found = strange(places.top, PLAN_KEYS).map(([key, node]) => note(node, `the key ${key} is ignored${meant(key, PLAN_KEYS)}`));
  places.top.get("thread").value.forEach(({ value }, t) => {
    for (const [key, node] of strange(value, THREAD_KEYS)) {
      const hint = Object.hasOwn(PLAN_KEYS, key) ? ": it belongs above the first [[thread]]" : meant(key, THREAD_KEYS);
      found.push(note(node, `the key ${key} of thread ${t} is ignored${hint}`));
    }
  });
  return found.sort((x, y) => x.line - y.line);
}

// Beside a refusal of a plan, such as `error: MissingKey(21) thread 0 cpu`.
function whereInPlan(text, refusal) {
  const [, name, rest] = /^error: (\w+)\(\d+\) ?(.*)\n?$/.exec(refusal) ?? [], thread = /^thread (\d+) ?(.*)$/.exec(rest ?? ""), t = thread && Number(thread[1]);
  try {
    const places = new PlanPlaces(text), key = thread ? thread[2] : rest;
    if (name === "BadToml") return { says: "it is no TOML document that a plan may be: an integer beyond 64 bits, a float beyond its range, or brackets nested too deep" };
    if (name === "Guest") return places.instruction(t, Number(/line (\d+)/.exec(rest)[1]));
    if (name === "OutOfRange" && key === "program") return places.strayBuffer(t);
    return places.key(key, t);
  } catch (fault) {
    return fault instanceof TomlFault ? { ...placeOfFault(text, fault), says: `it is no TOML document: ${fault.message}` } : {};
  }
}

function placeOfFault(text, fault) {
  const { number, column, text: line } = lineOf(text, Math.min(fault.at, text.length));
  return { line: number, text: line, from: column - 1, piece: line.slice(column - 1) };
}

// What may have gone wrong with an item of a schedule, or nothing.
function scheduleHint(item) {
  const [times, cpu = ""] = item.split("*"), isSwapped = readItem(item).fault && !readItem(`${cpu}*${times}`).fault;
  if (/\s/.test(item)) return ". Here is white space: a comma, and nothing else, separates two items";
  if (item.includes(";")) return ". A comma separates two items";
  if (/^\*|\*$/.test(item)) return ". A number is missing beside *: 0*13 is 13 steps of CPU 0";
  if (isSwapped) return `. The CPU comes first: is ${cpu}*${times} meant?`;
  return /[^ -~]/.test(item) ? ". Here is a letter that is no plain digit" : /^[a-z]+$/i.test(item) ? ". The button random writes one" : "";
}

// Beside BadSchedule or BadCpu: the item that is wrong.
function whereInSchedule(text, refusal, cpus) {
  const read = readSchedule(text), index = read.fault ? read.index - 1 : refusal.includes("BadCpu") ? read.items.findIndex(item => item.cpu >= cpus) : -1;
  if (index < 0) return {};
  const items = text.split(","), from = items.slice(0, index).map(item => `${item},`).join("").length;
  return { text, from, piece: items[index], says: `item ${index + 1}: ${read.fault ?? `the plan has the CPUs 0 to ${cpus - 1}`}${scheduleHint(items[index])}` };
}

// Beside the judge's no, such as `no 6 EmptyTake(35)`: what is wanted there, where the page's own judge finds the same fault; else what the reason means.
function whereInTrace(text, verdict) {
  const [, number, reason] = /^no (\d+) (\w+)/.exec(verdict), line = Number(number), fault = faultOf(text);
  const isSame = fault?.line === line && fault.reason === reason;
  return { line, text: text.split("\n")[line - 1] ?? "", says: isSame ? fault.why : TRACE_REASONS[reason] };
}

// What stands beside any refusal of `run`.
function whereIs(plan, schedule, refusal, cpus) {
  const name = /^error: (\w+)/.exec(refusal)?.[1];
  if (name === "BadSchedule" || name === "BadCpu") return whereInSchedule(schedule, refusal, cpus);
  return OTHER_REASONS[name] ? { says: OTHER_REASONS[name] } : whereInPlan(plan, refusal);
}
