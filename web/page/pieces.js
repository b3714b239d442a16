"use strict";
// A kernel's state in pieces: each CPU, each thread, each lock with its block, each trace. Equal pieces of a place are kept once and have one number, with what
// the piece says of the laws. A lock is kept as its block and who stands in its line, so that two states which differ only in how often a lock was taken are one.
// A row has the numbers of a state's pieces, one for each place.

// about what a piece takes beside its text: of a CPU, a thread or a trace; of a lock; and what a list takes
const PIECE_BYTES = 1000, LOCK_BYTES = 120, LIST_BYTES = 120;
const LOCK_ROW = 13; // numbers of a lock's row
const UNSET = ""; // the place of a thread that has none yet
const AFTER_EFFECT = ["Other", "Own", "RelQ", "Returns"]; // the stages of a call that has taken effect and not returned
const LAW_BITS = new Map([...LAWS.keys()].map((law, i) => [law, 1 << i]));
const bitOf = law => LAW_BITS.get(law);
const BIT = {
  place: bitOf("one place for each thread"), home: bitOf("each thread runs at home"), inside: bitOf("one CPU inside a lock"),
  owner: bitOf("only the owner works on a buffer"), wakeUp: bitOf("no lost wake-up"), sleeper: bitOf("nobody sleeps at a free lock"),
  lost: bitOf("sent = received ++ left"), order: bitOf("callers in their order"), answer: bitOf("each answer fits its buffer"),
  grows: bitOf("the order only grows"), still: bitOf("quiet only if nobody can go on"),
};
const EFFECT_BITS = BIT.lost | BIT.order | BIT.answer | BIT.grows, STATE_BITS = BIT.place | BIT.home | BIT.owner | BIT.wakeUp | BIT.sleeper;

const listText = list => (list.length === 0 ? "" : list.length === 1 ? `${list[0]}` : list.join());

const itemsText = items => (items.length === 0 ? "" : items.map(spelledMessage).join(" "));

// A block as a text, perhaps without what no step reads.
function blockText(block, isEndless) {
  if (block instanceof PendingBlock) return listText(block.threads);
  const { owner, items, effects, sleepers, waiting, line, positions, closed, closes } = block, history = isEndless ? "" : `${effects};${positions};${closes}`;
  const lists = `${listText(sleepers)};${listText(waiting[0])};${listText(waiting[1])};${listText(line[0])};${listText(line[1])}`;
  return `${owner};${itemsText(items)};${lists};${closed};${history}`;
}

function isSameList(list, other) {
  if (list.length !== other.length) return false;
  for (let i = 0; i < list.length; i++) if (list[i] !== other[i]) return false;
  return true;
}

const isSameCpu = ({ current, hand, ready, begun, section }, known) => section === null && known.section === null && current === known.current
  && hand === known.hand && begun === known.begun && isSameList(ready, known.ready);

// Lists by their numbers: equal ones have one. A list is a pair of the list before its last member, and that member's number; the empty one is 0.
class Lists {
  // `numberOf` and `memberOf` say what number a member has, and which member has a number.
  constructor(memory, numberOf = member => member, memberOf = number => number) {
    Object.assign(this, { memory, numberOf, memberOf, nodes: new Pairs(memory), lists: new Map([[0, []]]) });
  }

  number(list) {
    let number = 0;
    for (let i = 0; i < list.length; i++) number = 1 + this.nodes.number(number, this.numberOf(list[i]));
    return number;
  }

  // The list of a number. It is made once, and nobody changes it.
  list(number) {
    return this.lists.get(number) ?? this.made(number);
  }

  made(number) {
    const { keys } = this.nodes, list = [...this.list(keys[2 * number - 2]), this.memberOf(keys[2 * number - 1])].slice();
    this.memory.take(LIST_BYTES + 8 * list.length);
    this.lists.set(number, list);
    return list;
  }
}

// What a piece says of the laws and of the next step: the threads that stand in it and the laws broken there; of a CPU the lock that it is inside of; of a
// thread the buffer that it works on, and whether it has ended; of a buffer its owner; whether a CPU has nothing to do.
const SILENT = { threads: [], broken: 0, inside: -1, works: -1, owner: -1, isEnded: false, isIdle: true, isFresh: false, begun: 0, length: 0, thread: -1,
  runs: false, isBetween: false };

function cpuSays(kernel, c, locks) {
  const { current, ready, hand, section, block, begun } = kernel.cpus[c], own = current === null ? ready : [...ready, current];
  const home = t => kernel.guests[t].home, isAstray = own.some(t => home(t) !== c) || (hand !== null && home(hand) === c);
  const isBetween = section === null && hand === null;
  return {
    ...SILENT, threads: hand === null ? own : [...own, hand], broken: isAstray ? BIT.home : 0, inside: block === null ? -1 : locks.indexOf(section.lock),
    isIdle: isBetween && own.length === 0, isBetween, begun, runs: current !== null, thread: current ?? ready[0] ?? -1,
  };
}

function guestSays(kernel, t) {
  const guest = kernel.guests[t], isFresh = guest.call() !== null && guest.stage === null;
  return { ...SILENT, threads: isEnded(guest) ? [t] : [], isEnded: isEnded(guest), works: worksOn(guest) ?? -1, isFresh };
}

function pendingSays(kernel, { threads }, c) {
  return { threads, broken: threads.some(t => kernel.guests[t].home !== c) ? BIT.home : 0, owner: -1 };
}

function bufferSays(buffer) {
  const { owner, sleepers, waiting } = buffer, isFree = owner === null, isLost = isFree && (sleepsInVain(buffer, RECEIVERS) || sleepsInVain(buffer, SENDERS));
  const broken = (isLost ? BIT.wakeUp : 0) | (isFree && sleepers.length ? BIT.sleeper : 0);
  return { threads: [...sleepers, ...waiting[RECEIVERS], ...waiting[SENDERS]], broken, owner: owner ?? -1 };
}

class Pieces {
  // `isEndless`: a state is kept without what no step reads, that is its traces, the counts of effects and positions. Traces have room without end then.
  constructor(plan, wrong = null, isEndless = false, memory = new Memory()) {
    const kernel = new Kernel(isEndless ? { ...plan, trace: Infinity } : plan, wrong), [cpus, guests] = [kernel.cpus.length, kernel.guests.length];
    const locks = [...kernel.blocks.keys()], locksAt = cpus + guests, tracesAt = locksAt + locks.length;
    Object.assign(this, { kernel, isEndless, locks, guestsAt: cpus, locksAt, tracesAt, count: tracesAt + (isEndless ? 0 : cpus) });
    this.hasCopies = wrong === "look-always-hits"; // then a CPU inside has a copy of its own; else the block is nobody else's
    const words = new Lists(memory, word => this.wordNumber(word), number => this.words[number]);
    const items = new Lists(memory, message => words.number(message), number => words.list(number));
    Object.assign(this, { memory, words: [], wordNumbers: new Map(), items, lists: new Lists(memory) });
    // of each piece: its number by its text, of a lock by its row; what is put again of it, of a lock its row's number; what it says. Threads are letters, since
    // most pieces are locks
    Object.assign(this, { numbers: new Map(), lockRows: new Rows(memory, LOCK_ROW), lockNumbers: [], lockRow: new Int32Array(LOCK_ROW) });
    Object.assign(this, { kept: [], says: [], threads: [], brokens: [], owners: [], loaded: new Int32Array(this.count).fill(-1) });
  }

  // ---- from the kernel to numbers

  // The number of what the kernel has at a place.
  numberOf(place) {
    if (place >= this.locksAt && place < this.tracesAt) return this.lockNumber(place);
    const text = this.textAt(place), known = this.numbers.get(text);
    if (known !== undefined) return known;
    this.memory.take(PIECE_BYTES + text.length);
    this.numbers.set(text, this.kept.length);
    return this.add(this.keptAt(place), this.saysOf(place));
  }

  lockNumber(place) {
    const { lockRows, lockNumbers, locks, locksAt } = this, next = lockRows.count, number = lockRows.number(this.rowOfLock(place, locks[place - locksAt]));
    if (number < next) return lockNumbers[number];
    this.memory.take(LOCK_BYTES);
    lockNumbers.push(this.add(number, this.saysOf(place), SILENT));
    return lockNumbers[number];
  }

  // Keeps a new piece. A lock says nothing beside its threads, the laws and its owner.
  add(kept, said, rest = said) {
    this.says.push(rest);
    this.threads.push(String.fromCharCode(...said.threads));
    this.brokens.push(said.broken);
    this.owners.push(said.owner);
    return this.kept.push(kept) - 1;
  }

  // What the kernel has of a lock, as numbers: who stands in its line, and its block.
  rowOfLock(place, lock) {
    const { lists, lockRow, isEndless } = this, block = this.kernel.blocks.get(lock);
    lockRow.fill(0);
    lockRow[0] = place;
    lockRow[1] = lists.number(this.lineOf(lock));
    if (block instanceof PendingBlock) {
      lockRow[2] = lists.number(block.threads);
      return lockRow;
    }
    const { owner, items, sleepers, waiting, line, closed, effects, positions, closes } = block;
    lockRow[2] = 2 * (owner === null ? 0 : owner + 1) + (closed ? 1 : 0);
    lockRow[3] = this.items.number(items);
    lockRow[4] = lists.number(sleepers);
    for (const side of [RECEIVERS, SENDERS]) {
      lockRow[5 + side] = lists.number(waiting[side]);
      lockRow[7 + side] = lists.number(line[side]);
      lockRow[9 + side] = isEndless ? 0 : positions[side];
    }
    lockRow[11] = isEndless ? 0 : effects;
    lockRow[12] = isEndless ? 0 : closes;
    return lockRow;
  }

  // The block of a lock's row.
  blockIn(at, before) {
    const { lists, items, lockRows: { keys } } = this;
    if (before instanceof PendingBlock) return new PendingBlock(lists.list(keys[at + 2]));
    const owner = (keys[at + 2] >> 1) - 1, pairOf = (place, of) => [of(keys[at + place]), of(keys[at + place + 1])], list = number => lists.list(number);
    return new BufferBlock(before.capacity, {
      owner: owner < 0 ? null : owner, closed: keys[at + 2] % 2 === 1, items: items.list(keys[at + 3]), sleepers: lists.list(keys[at + 4]),
      waiting: pairOf(5, list), line: pairOf(7, list), positions: pairOf(9, Number), effects: keys[at + 11], closes: keys[at + 12],
    });
  }

  // The number of a word of a message.
  wordNumber(word) {
    const { words, wordNumbers } = this;
    if (!wordNumbers.has(word)) wordNumbers.set(word, words.push(word) - 1);
    return wordNumbers.get(word);
  }

  // Whether the kernel has a piece at the place of a CPU between its sections or of a thread.
  hasAt(place, number) {
    const { kernel, guestsAt, kept } = this, known = kept[number];
    return place < guestsAt ? isSameCpu(kernel.cpus[place], known) : this.isSameGuest(kernel.guests[place - guestsAt], known);
  }

  isSameGuest({ line, registers, stage, position, effect, place }, known) {
    if (line !== known.line || stage !== known.stage || place !== known.place || (!this.isEndless && position !== known.position)) return false;
    const other = known.effect, hasOne = this.hasEffect(stage) && effect !== null;
    if (hasOne !== (other !== null) || (hasOne && (other.kind !== effect.kind || !isSameList(other.message, effect.message)))) return false;
    return isSameList(registers, known.registers);
  }

  // What the kernel has at a place, as a text. What is left out of it is not kept either.
  textAt(place) {
    const { kernel, guestsAt, locksAt, tracesAt } = this;
    if (place < guestsAt) return `${place}:${this.cpuText(kernel.cpus[place])}`;
    if (place < locksAt) return `${place}:${this.guestText(kernel.guests[place - guestsAt])}`;
    if (place >= tracesAt) return `${place}:${kernel.cpus[place - tracesAt].trace.join(";")}`;
    const lock = this.locks[place - locksAt], block = kernel.blocks.get(lock);
    return `${place}:${blockText(block, this.isEndless)}:${listText(this.lineOf(lock))}`;
  }

  cpuText({ current, hand, ready, begun, section, block }) {
    const inside = block === null ? "" : `inside ${this.hasCopies ? blockText(block, false) : ""}`;
    return `${current};${hand};${listText(ready)};${begun};${section?.name};${section?.lock};${inside}`;
  }

  guestText({ line, registers, stage, position, effect, place }) {
    const known = this.hasEffect(stage) && effect ? `${effect.kind} ${effect.message}` : "";
    return `${line};${registers};${stage};${this.isEndless ? 0 : position};${known};${place}`;
  }

  hasEffect(stage) {
    return !this.isEndless || AFTER_EFFECT.includes(stage);
  }

  // The CPUs in the line of a lock.
  lineOf(lock) {
    const { cpus } = this.kernel, at = [];
    for (let c = 0; c < cpus.length; c++) if (cpus[c].section !== null && cpus[c].section.lock === lock) at.push(c);
    return at.length < 2 ? at : at.sort((c, other) => cpus[c].ticket - cpus[other].ticket);
  }

  // What the kernel has at the place of a CPU, a thread or a trace, to be put again.
  keptAt(place) {
    const { kernel, guestsAt, tracesAt, isEndless } = this;
    if (place >= tracesAt) return kernel.cpus[place - tracesAt].trace;
    if (place >= guestsAt) {
      const { line, registers, stage, position, effect, place: at } = kernel.guests[place - guestsAt];
      return { line, registers: [...registers], stage, position: isEndless ? 0 : position, effect: this.hasEffect(stage) ? effect : null, place: at };
    }
    const { current, hand, ready, begun, section, block } = kernel.cpus[place];
    return { current, hand, ready, begun, section, isInside: block !== null, copy: block !== null && this.hasCopies ? block.copied() : null };
  }

  saysOf(place) {
    const { kernel, locks } = this;
    if (place < this.guestsAt) return cpuSays(kernel, place, locks);
    if (place < this.locksAt) return guestSays(kernel, place - this.guestsAt);
    if (place >= this.tracesAt) return { ...SILENT, length: kernel.cpus[place - this.tracesAt].trace.length };
    const lock = locks[place - this.locksAt], block = kernel.blocks.get(lock);
    return block instanceof PendingBlock ? pendingSays(kernel, block, Number(lock.slice("pending".length))) : bufferSays(block);
  }

  // What the kernel has, as one text.
  text() {
    return counted(this.count).map(place => this.textAt(place)).join();
  }

  // ---- from numbers to the kernel

  // Makes the kernel's state that of a row. What it has already stays, but for CPUs, which may be inside of a lock.
  load(row) {
    const { kernel, kept, loaded, guestsAt } = this;
    for (let place = this.count - 1; place >= 0; place--) if (place < guestsAt || loaded[place] !== row[place]) this.put(place, kept[row[place]]);
    loaded.set(row);
    return kernel;
  }

  // Makes the kernel's what a move of a CPU may read of a row: all CPUs, its thread, its trace and a lock. Other threads have no place then.
  loadFor(row, c, lockPlace) {
    const { kernel, guestsAt } = this, { guests } = kernel, { thread } = this.says[row[c]];
    this.loaded.fill(-1);
    for (let t = 0; t < guests.length; t++) guests[t].place = UNSET;
    if (!this.isEndless) this.putAgain(this.tracesAt + c, row);
    if (lockPlace >= 0) this.putAgain(lockPlace, row);
    if (thread >= 0) this.putAgain(guestsAt + thread, row);
    for (let cpu = 0; cpu < guestsAt; cpu++) this.putAgain(cpu, row);
    return kernel;
  }

  putAgain(place, row) {
    this.put(place, this.kept[row[place]]);
  }

  // Reads from another kernel from here on.
  hold(kernel) {
    this.kernel = kernel;
    this.loaded.fill(-1);
  }

  // Locks are put before the CPUs, which may be inside of them.
  put(place, kept) {
    const { kernel } = this;
    if (place >= this.tracesAt) kernel.cpus[place - this.tracesAt].trace = kept;
    else if (place >= this.locksAt) this.putLock(this.locks[place - this.locksAt], kept);
    else if (place >= this.guestsAt) this.putGuest(kernel.guests[place - this.guestsAt], kept);
    else this.putCpu(kernel.cpus[place], kept);
  }

  putGuest(guest, { line, registers, stage, position, effect, place }) {
    guest.line = line;
    guest.registers = [...registers];
    guest.stage = stage;
    guest.position = position;
    guest.effect = effect;
    guest.place = place;
  }

  putLock(lock, number) {
    const { blocks, words, cpus } = this.kernel, at = LOCK_ROW * number, line = this.lists.list(this.lockRows.keys[at + 1]), word = words.get(lock);
    blocks.set(lock, this.blockIn(at, blocks.get(lock)));
    word.next = line.length;
    word.serving = 0;
    for (let ticket = 0; ticket < line.length; ticket++) cpus[line[ticket]].ticket = ticket;
  }

  putCpu(cpu, { current, hand, ready, begun, section, isInside, copy }) {
    cpu.current = current;
    cpu.hand = hand;
    cpu.ready = ready;
    cpu.begun = begun;
    cpu.section = section;
    cpu.block = isInside ? (copy ?? this.kernel.blocks.get(section.lock)).copied() : null;
    if (this.isEndless) cpu.trace = [];
  }
}
