"use strict";
// Moves of a CPU from a state in pieces: a step, or a whole section. What a move does depends on the CPU, on the thread that it runs and on the lock that it is
// at, and on no other piece; so it is taken once by the twin for each three pieces that meet, and looked up from then on.

const ROOM_OF_MOVE = 80; // about what a move takes in lists beside its numbers
const MOST_LATELY = 8; // pieces that are compared
const UNTOLD = -2; // whether the laws hold of a thread that was moved does not follow from its two pieces

// The numbers of a move: the pieces that it leaves of the CPU (-1: it would change nothing), of its thread and of the lock; the places of the thread and the
// lock, or -1; where in `others` those threads begin and end that it only moved, each by its place and the number of its new one; and marks.
const MOVE = 8, OF_CPU = 0, OF_THREAD = 1, OF_LOCK = 2, THREAD_AT = 3, LOCK_AT = 4, OTHERS_FROM = 5, OTHERS_TO = 6, MARKS = 7;

// Its marks: the laws on effects that it breaks, whether it changes what a buffer holds, whether the laws on states hold behind it where they hold before it, and
// whether it is a whole section.
const IS_CHANGED = 1 << 12, IS_KEEPING = 1 << 13, IS_SECTION = 1 << 14;

// What the group of a CPU says of it: why it takes no move, or to which lock its next move goes (NO_LOCK: to none, or to its own pending queue); whether it has
// nothing to do, and whether its threads have ended.
const HALTED = 0, FOREIGN = 1, NO_LOCK = 2, FIRST_LOCK = 3, KIND = 63, RESTS = 64, ENDED = 128;

class Moves {
  constructor(pieces, bySections, memory) {
    const { guests, cpus } = pieces.kernel, homeOf = c => guests.flatMap(({ home }, t) => (home === c ? [pieces.guestsAt + t] : []));
    Object.assign(this, { pieces, bySections, memory, homes: cpus.map((_, c) => homeOf(c)), counts: guests.map(() => 0) });
    // a CPU's piece and its thread's, the place of the lock that they go to, or -1, and pieces that moves left of them; these and the lock's piece, and the move
    Object.assign(this, { meetings: new Pairs(memory), lockPlaces: [], lefts: [], known: new Pairs(memory), count: 0, othersEnd: 0 });
    Object.assign(this, { table: new Int32Array(MOVE * ROOM), others: new Int32Array(ROOM), entries: new Map() });
    // moved threads, longer traces; how often each thread is in some pieces
    Object.assign(this, { placeWords: [], movings: new Pairs(memory), moved: [], longer: new Pairs(memory), traces: [] });
    memory.take(4 * (MOVE + 1) * ROOM);
  }

  // ---- what a CPU does next

  // What a CPU's own pieces say of its next move.
  kindOf(row, c) {
    const { says, guestsAt, locksAt, tracesAt, kernel } = this.pieces, { isIdle, isBetween, thread } = says[row[c]], pending = tracesAt - guestsAt + c;
    const hasEnded = this.homes[c].every(place => says[row[place]].isEnded), rests = this.pieces.threads[row[pending]] === "" && (isIdle || (isBetween && hasEnded));
    const marks = (rests ? RESTS : 0) | (hasEnded ? ENDED : 0);
    if (isBetween && (hasEnded || this.isFull(row, c))) return marks | HALTED;
    if (thread >= 0 && kernel.guests[thread].home !== c) return marks | FOREIGN;
    const lockPlace = this.lockPlaces[this.meetingOf(row, c)];
    return marks | (lockPlace < 0 || lockPlace === pending ? NO_LOCK : FIRST_LOCK + lockPlace - locksAt);
  }

  // Whether the trace of a CPU has no room for the call that comes next.
  isFull(row, c) {
    const { says, guestsAt, tracesAt, isEndless, kernel } = this.pieces, { runs, thread, begun } = says[row[c]];
    if (isEndless || !runs || !says[row[guestsAt + thread]].isFresh) return false;
    return says[row[tracesAt + c]].length + begun === kernel.room;
  }

  // The number of a CPU's piece and of its thread's.
  meetingOf(row, c) {
    const { says, guestsAt } = this.pieces, { thread } = says[row[c]], meeting = this.meetings.number(row[c], thread < 0 ? -1 : row[guestsAt + thread]);
    if (meeting < this.lockPlaces.length) return meeting;
    this.lockPlaces.push(this.lockPlaceOf(row, c));
    this.lefts.push([[], []]);
    return meeting;
  }

  // The place of the lock that a CPU is at or goes to with its next step, or -1.
  lockPlaceOf(row, c) {
    const { pieces } = this, kernel = pieces.loadFor(row, c, -1), cpu = kernel.cpus[c];
    if (cpu.section === null) kernel.step(c);
    return cpu.section === null ? -1 : pieces.locksAt + pieces.locks.indexOf(cpu.section.lock);
  }

  // ---- moves

  // The number of a CPU's move, where the CPU is not halted; -1 if it would change nothing, since the CPU looks in vain.
  of(row, c) {
    const meeting = this.meetingOf(row, c), lockPlace = this.lockPlaces[meeting], number = this.known.number(meeting, lockPlace < 0 ? -1 : row[lockPlace]);
    if (number === this.count) this.take(row, c, meeting);
    return this.table[MOVE * number + OF_CPU] < 0 ? -1 : number;
  }

  // Takes a new move by the twin, and keeps what it did. Other threads have no place before it, so that each place which it gives them is seen; that a CPU whose
  // own threads have all ended takes no step is known by then.
  take(row, c, meeting) {
    const { pieces } = this, lockPlace = this.lockPlaces[meeting], kernel = pieces.loadFor(row, c, lockPlace), cpu = kernel.cpus[c], at = MOVE * this.count++;
    const { thread } = pieces.says[row[c]], lock = pieces.locks[lockPlace - pieces.locksAt], before = kernel.blocks.get(lock), [, part] = kernel.step(c);
    if (at === this.table.length) this.table = this.memory.longer(this.table, Math.ceil(GROWTH * this.count) * MOVE);
    this.table[at] = -1;
    if (part === "misses" || part === "") return;
    while (this.bySections && cpu.section !== null) kernel.step(c);
    const guest = kernel.guests[thread], effects = before instanceof BufferBlock ? judgedEdit(before, kernel.blocks.get(lock), kernel.entry, guest) : 0;
    if (kernel.entry !== null && !pieces.isEndless) this.entries.set(this.count - 1, kernel.entry);
    const threadAt = thread < 0 ? -1 : pieces.guestsAt + thread, [cpus, guests] = this.lefts[meeting], from = this.othersEnd;
    this.takeOthers(thread);
    const { table } = this, isSection = this.bySections && part === "draws";
    table[at + OF_CPU] = this.left(c, cpus);
    table[at + OF_THREAD] = this.left(threadAt, guests);
    table[at + OF_LOCK] = lockPlace < 0 ? -1 : pieces.numberOf(lockPlace);
    table[at + THREAD_AT] = threadAt;
    table[at + LOCK_AT] = lockPlace;
    table[at + OTHERS_FROM] = from;
    table[at + OTHERS_TO] = this.othersEnd;
    table[at + MARKS] = effects | (this.isKeeping(at, row, c) ? IS_KEEPING : 0) | (isSection ? IS_SECTION : 0);
  }

  // The piece that a move left at a place. Moves of the same CPU's piece and thread's often leave the same, so these are compared first.
  left(place, lately) {
    if (place < 0) return -1;
    const { pieces } = this;
    for (let i = 0; i < lately.length; i++) if (pieces.hasAt(place, lately[i])) return lately[i];
    const number = pieces.numberOf(place);
    if (lately.length < MOST_LATELY && !lately.includes(number)) lately.push(number);
    return number;
  }

  // Keeps the threads that have a place by a move, but for that which the CPU runs.
  takeOthers(thread) {
    const { guests } = this.pieces.kernel, { guestsAt } = this.pieces;
    for (let t = 0; t < guests.length; t++) {
      if (guests[t].place === UNSET || t === thread) continue;
      if (this.othersEnd === this.others.length) this.others = this.memory.longer(this.others);
      this.others[this.othersEnd++] = guestsAt + t;
      this.others[this.othersEnd++] = this.placeNumber(guests[t].place);
    }
  }

  // Makes a row what it is behind a move.
  apply(number, row, c) {
    const { table, others } = this, at = MOVE * number, trace = this.pieces.tracesAt + c, entry = this.entries.get(number);
    row[c] = table[at + OF_CPU];
    if (table[at + THREAD_AT] >= 0) row[table[at + THREAD_AT]] = table[at + OF_THREAD];
    if (table[at + LOCK_AT] >= 0) row[table[at + LOCK_AT]] = table[at + OF_LOCK];
    for (let i = table[at + OTHERS_FROM]; i < table[at + OTHERS_TO]; i += 2) row[others[i]] = this.movedTo(row[others[i]], others[i + 1], others[i]);
    if (entry !== undefined) row[trace] = this.longerTrace(row[trace], number, entry, trace);
  }

  // The number of a place's words.
  placeNumber(words) {
    const known = this.placeWords.indexOf(words);
    return known < 0 ? this.placeWords.push(words) - 1 : known;
  }

  // The piece of a thread that was only moved to another place.
  movedTo(guest, words, at) {
    const number = this.movings.number(guest, words);
    if (number === this.moved.length) this.moved.push(this.putNumber(at, { ...this.pieces.kept[guest], place: this.placeWords[words] }));
    return this.moved[number];
  }

  // A trace with an entry more at its end.
  longerTrace(trace, move, entry, at) {
    const number = this.longer.number(trace, move);
    if (number === this.traces.length) this.traces.push(this.putNumber(at, [...this.pieces.kept[trace], entry]));
    return this.traces[number];
  }

  putNumber(at, kept) {
    this.memory.take(ROOM_OF_MOVE);
    this.pieces.loaded[at] = -1;
    this.pieces.put(at, kept);
    return this.pieces.numberOf(at);
  }

  // ---- the laws

  // Whether the laws on states hold behind a move where they hold before it, if they do of the threads that it only moved: its three pieces have the same
  // threads as before and break no law, and who works on a buffer is its owner. A former owner is one of these threads, or the buffer's owner still.
  isKeeping(at, row, c) {
    const { says, locksAt, guestsAt, owners } = this.pieces, { table } = this, threadAt = table[at + THREAD_AT], lockAt = table[at + LOCK_AT];
    const broken = this.brokenAt(OF_CPU, at, row, c) | this.brokenAt(OF_THREAD, at, row, threadAt) | this.brokenAt(OF_LOCK, at, row, lockAt);
    if (!this.areEven() || broken !== 0) return false;
    const thread = threadAt - guestsAt, lock = lockAt - locksAt, works = threadAt < 0 ? -1 : says[table[at + OF_THREAD]].works;
    const former = lockAt < 0 ? -1 : owners[row[lockAt]], owner = lockAt < 0 ? -1 : owners[table[at + OF_LOCK]];
    const isOwner = works < 0 || (works === lock ? owner === thread : works === says[row[threadAt]].works);
    return isOwner && (former === owner || former < 0 || former === thread || this.isOther(at, former + guestsAt));
  }

  // The laws that the piece of a place breaks behind a move. Its threads are counted, those before the move against those behind it.
  brokenAt(of, at, row, place) {
    if (place < 0) return 0;
    const { threads, brokens } = this.pieces, before = threads[row[place]], behind = threads[this.table[at + of]];
    if (before !== behind) {
      this.countThreads(before, 1);
      this.countThreads(behind, -1);
    }
    return brokens[this.table[at + of]];
  }

  // Counts threads, each of which is a letter.
  countThreads(threads, by) {
    for (let i = 0; i < threads.length; i++) this.counts[threads.charCodeAt(i)] += by;
  }

  // Whether each thread was counted as often before as behind; the counts begin anew.
  areEven() {
    const isEven = this.counts.every(count => count === 0);
    if (!isEven) this.counts.fill(0);
    return isEven;
  }

  // Whether a move only moves the thread of a place.
  isOther(at, place) {
    for (let i = this.table[at + OTHERS_FROM]; i < this.table[at + OTHERS_TO]; i += 2) if (this.others[i] === place) return true;
    return false;
  }

  // Of a thread that is only moved, by its two pieces: the buffer whose owner it has to be behind the move, -1 for none, or UNTOLD.
  dueOf(before, after) {
    const { says } = this.pieces;
    return says[before].isEnded === says[after].isEnded ? says[after].works : UNTOLD;
  }

  // Whether the laws on states hold of the CPU's own threads that a move only moved.
  areDueMet(number, row, c) {
    const { locksAt, guestsAt, owners, kernel, says } = this.pieces, { table, others } = this, at = MOVE * number, lock = table[at + LOCK_AT] - locksAt;
    const isMet = (place, words) => {
      const due = this.dueOf(row[place], this.movedTo(row[place], words, place));
      return due === -1 || (due === lock ? owners[table[at + OF_LOCK]] === place - guestsAt : due >= 0 && due === says[row[place]].works);
    };
    for (let i = table[at + OTHERS_FROM]; i < table[at + OTHERS_TO]; i += 2) {
      if (kernel.guests[others[i] - guestsAt].home === c && !isMet(others[i], others[i + 1])) return false;
    }
    return true;
  }
}

// The laws on effects that the edit of a buffer's block breaks, where they held before it, and whether what the buffer holds is changed, as marks.
function judgedEdit(before, after, entry, guest) {
  if (entry === null && before.items === after.items && before.closed === after.closed) return 0;
  const held = before.items.map(spelledMessage), left = after.items.map(spelledMessage), [, t, kind, , value] = entry ?? [];
  const wanted = kind === "send" ? [...held, value] : kind === "recv" ? held.slice(1) : held;
  const isKept = left.join(" ") === wanted.join(" "), isLost = !isKept || (kind === "recv" && held[0] !== value), side = entry && guest.call().side;
  const isOutOfTurn = entry && kind !== "close" && before.line[side][0] !== t, isClosed = before.closed || kind === "close";
  const isFalse = (entry && whyNot(kind, before.items.length, before.closed, before.capacity) !== null) || isClosed !== after.closed;
  const faults = (isLost ? BIT.lost : 0) | (isOutOfTurn ? BIT.order : 0) | (isFalse ? BIT.answer : 0);
  return faults | (entry || held.join(" ") !== left.join(" ") || before.closed !== after.closed ? IS_CHANGED : 0);
}
