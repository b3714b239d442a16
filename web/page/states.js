"use strict";
// Every state of a plan that some schedule reaches, nearest first: what plans/states.py goes through, with the same numbers.

const MOST_BYTES = 256e6, STATES_BETWEEN = 256; // bytes that a search may take; states that are looked at before it tells how far it is
const MOST_CACHED = 1 << 18, MOST_PLACES = 128, MOVED_PLACES = 256 * MOST_PLACES; // entries of a cache; numbers of places' words, and those of all threads
const IS_END = 1 << 15; // a mark of a state that was wanted: no search goes beyond it
const NOTHING = { bits: 0, isDeadlock: false, test: null }; // of what may be wanted: laws that are broken, a deadlock, a test of the kernel in a state

// The whole kernel and most mistakes are searched by whole sections: a section reads its block and its CPU as they are at its draw, once those before it at
// its lock are done. A lock that is none, where a look always hits, has no such order.
const mayGoBySections = wrong => wrong !== "look-always-hits";

class States {
  // how far the search is: the state that is looked at, and its CPU that is next; what was found of the laws; what was told of the last move (see moveOf)
  looked = 0; cpu = 0; depth = 0; moved = 0; layerEnd = 1; isLimited = false; isBegun = false; broken = new Map(); everBroken = 0; group = 0; isClean = false;
  // a state is the groups of the CPUs and the buffers; of each state are kept: these, the one before it, the CPU and the kind of the move that led here, marks
  groups; states; from; by; marks;
  // what a CPU's group and a lock make of the group, and by which move; what a new place of a thread or a new pending queue makes of a group
  deeds; shifts;
  now; next; row; standing; stamp = 0; plan; wrong; isEndless; bySections; memory; pieces; moves; cpus;

  // `ways` has `bySections`: a move is a whole section; `isEndless`: states are kept without history; `most`: bytes.
  constructor(plan, wrong = null, { bySections = false, isEndless = false, most = MOST_BYTES } = {}) {
    if ((bySections || isEndless) && !mayGoBySections(wrong)) throw new RangeError(`the mistake ${wrong} is searched by steps and with history`);
    const memory = new Memory(most), pieces = new Pieces(plan, wrong, isEndless, memory), moves = new Moves(pieces, bySections, memory), { cpus } = plan;
    const width = cpus + plan.buffers.length, sizes = [width, width, pieces.count, plan.threads.length], inner = new Pairs(memory);
    const [now, next, row, standing] = sizes.map(size => new Int32Array(size)), groups = counted(cpus).map(c => new Group(c, moves, inner, memory));
    Object.assign(this, { plan, wrong, isEndless, bySections, memory, pieces, moves, cpus, now, next, row, standing, groups });
    Object.assign(this, { states: new Rows(memory, width), deeds: new Cache(memory, ROOM), shifts: new Cache(memory, ROOM) });
    Object.assign(this, { from: new Int32Array(ROOM), by: new Uint8Array(ROOM), marks: new Uint16Array(ROOM) });
    memory.take(7 * ROOM);
    row.set(row.map((_, place) => pieces.numberOf(place)));
    this.putRow(now);
    this.states.number(now);
  }

  get count() {
    return this.states.count;
  }

  get isAll() {
    return this.looked === this.count;
  }

  // ---- states as numbers

  // Makes a state of the row.
  putRow(state) {
    const { row, groups, pieces, cpus } = this;
    groups.forEach((group, c) => { state[c] = group.numberOf(row); });
    for (let i = cpus; i < state.length; i++) state[i] = row[pieces.locksAt + i - cpus];
  }

  // The row of a state.
  rowOf(state) {
    const { row, groups, pieces, cpus } = this;
    for (let c = 0; c < cpus; c++) groups[c].open(state[c], row);
    for (let i = cpus; i < state.length; i++) row[pieces.locksAt + i - cpus] = state[i];
    return row;
  }

  loaded(state) {
    return this.pieces.load(this.rowOf(state));
  }

  // The kernel in a state, as the search keeps it.
  kernelOf(number) {
    this.states.open(number, this.next);
    return this.loaded(this.next);
  }

  // ---- the search

  // Goes on until a state is found that is wanted, or a move that breaks a law which is wanted; or until all have been seen, or so many, or the memory is full.
  // Returns how it is reached, {from, cpu, steps, number}, or null: by so many steps of a CPU from a state; without a number where the
  // state is an older one. A search that met a limit is over.
  look({ wanted = NOTHING, most = Infinity, tell = () => {}, hasLaws = true } = {}) {
    const asked = { wanted, hasLaws };
    try {
      if (this.isLimited) return null;
      if (!this.isBegun) {
        this.isBegun = true;
        if (this.seen(0, 0, this.now, asked)) return this.ended(0, -1, 0, 0);
      }
      return this.goOn(asked, most, tell);
    } catch (fault) {
      if (!(fault instanceof MemoryFull)) throw fault;
      this.isLimited = true;
      return null;
    }
  }

  goOn(asked, most, tell) {
    while (this.looked < this.count) {
      const found = this.spread(asked);
      if (found !== null) return found;
      this.looked++;
      this.cpu = 0;
      if (this.looked === this.layerEnd) {
        this.depth += this.count > this.layerEnd ? 1 : 0;
        this.layerEnd = this.count;
      }
      if (this.count >= most && !this.isAll) {
        this.isLimited = true;
        return null;
      }
      if (this.looked % STATES_BETWEEN === 0) tell(this);
    }
    return null;
  }

  // Takes the moves of each CPU that is left from the state that is looked at; returns how the first new state that is wanted is reached, or null.
  spread(asked) {
    const { looked, now, cpus } = this;
    if ((this.marks[looked] & IS_END) !== 0) return null;
    this.states.open(looked, now);
    while (this.cpu < cpus) {
      const c = this.cpu++, move = this.moveOf(c);
      if (move < 0) continue;
      this.moved++;
      const found = this.goTo(move, c, asked);
      if (found !== null) return found;
    }
    return null;
  }

  // The number of a CPU's move, or -1 if it would change nothing. Keeps the group that it leaves (-1: to be made anew), and whether it keeps the laws on states.
  moveOf(c) {
    const { now, deeds, cpus } = this, kind = this.groups[c].kinds[now[c]] & KIND, key = now[c] * cpus + c;
    this.group = -1;
    this.isClean = false;
    if (kind === HALTED) return -1;
    if (kind === FOREIGN) return this.moves.of(this.rowOf(now), c);
    const lock = kind === NO_LOCK ? -1 : this.lockAt(kind - FIRST_LOCK), kept = deeds.placeOf(key, lock);
    const at = deeds.has(kept, key, lock) ? kept : this.learn(c, key, lock), deed = deeds.entries[at + 3];
    if (deed < 0) return -1;
    this.group = deeds.entries[at + 2];
    this.isClean = deed % 2 === 1;
    return deed >> 1;
  }

  // The piece of a lock, by its number: those of buffers come first.
  lockAt(lock) {
    const { now, cpus, groups } = this, buffers = now.length - cpus;
    return lock < buffers ? now[cpus + lock] : groups[lock - buffers].pendings[now[lock - buffers]];
  }

  // Finds what becomes of a CPU's group at a lock.
  learn(c, key, lock) {
    const { moves } = this, row = this.rowOf(this.now), move = moves.of(row, c);
    if (move < 0) return this.deeds.keep(key, lock, -1, -1);
    const isClean = (moves.table[MOVE * move + MARKS] & IS_KEEPING) !== 0 && moves.areDueMet(move, row, c);
    moves.apply(move, row, c);
    return this.deeds.keep(key, lock, this.groups[c].numberOf(row), 2 * move + (isClean ? 1 : 0));
  }

  // Takes a move to its state; returns how that is reached if it is new and wanted, or if the move breaks a law that is wanted; or null.
  goTo(move, c, asked) {
    const { looked, count, isEndless } = this, marks = this.moves.table[MOVE * move + MARKS], steps = (marks & IS_SECTION) === 0 ? 1 : 3;
    const number = this.after(move, c), isNew = number === count, effects = asked.hasLaws && (isNew || isEndless) ? this.effectFaults(marks, looked, c) : 0;
    if (isNew) {
      this.from[number] = looked;
      this.by[number] = 2 * c + (steps > 1 ? 1 : 0);
      this.isClean &&= (this.marks[looked] & STATE_BITS) === 0;
      return this.seen(number, effects, this.next, asked) ? this.ended(number, looked, c, steps) : null;
    }
    return (effects & asked.wanted.bits) === 0 ? null : { from: looked, cpu: c, steps, number: null };
  }

  // What is told of a state that is wanted. A state without history is an end only if it breaks a law itself: other moves lead to it that break none.
  ended(number, from, cpu, steps) {
    if (!this.isEndless || (this.marks[number] & EFFECT_BITS) === 0) this.marks[number] |= IS_END;
    return { from, cpu, steps, number };
  }

  // The number of the state behind a move. A state and what is kept of it come into being together, or not at all.
  after(move, c) {
    const { next, now } = this;
    if (this.count === this.from.length) this.grow();
    for (let i = 0; i < next.length; i++) next[i] = now[i];
    if (this.group >= 0) {
      next[c] = this.group;
      this.putOthers(move, c);
    } else {
      this.moves.apply(move, this.rowOf(now), c);
      this.putRow(next);
    }
    return this.states.number(next);
  }

  // Puts what a move leaves beside the CPU's own group: the lock, and threads of other CPUs which it only moved.
  putOthers(move, c) {
    const { next, pieces, cpus } = this, { table, others } = this.moves, at = MOVE * move, lock = table[at + LOCK_AT] - pieces.locksAt, buffers = next.length - cpus;
    if (lock >= buffers && lock - buffers !== c) this.shift(lock - buffers, MOVED_PLACES + table[at + OF_LOCK]);
    else if (lock >= 0 && lock < buffers) next[cpus + lock] = table[at + OF_LOCK];
    for (let i = table[at + OTHERS_FROM]; i < table[at + OTHERS_TO]; i += 2) {
      const t = others[i] - pieces.guestsAt, { home } = pieces.kernel.guests[t];
      if (home === c) continue;
      const due = this.shift(home, t * MOST_PLACES + others[i + 1]);
      this.isClean &&= due === -1 || (due >= 0 && pieces.owners[next[cpus + due]] === t);
    }
  }

  // Puts the group of another CPU with one piece that is new: a thread at another place, or the pending queue. Returns what has to hold of the thread.
  shift(c, what) {
    const { next, shifts } = this, key = next[c] * this.cpus + c, kept = shifts.placeOf(key, what);
    const at = shifts.has(kept, key, what) ? kept : this.learnShift(c, key, what);
    next[c] = shifts.entries[at + 2];
    return shifts.entries[at + 3];
  }

  learnShift(c, key, what) {
    const { row, groups, moves, next } = this, group = groups[c], isPending = what >= MOVED_PLACES;
    group.open(next[c], row);
    const place = isPending ? group.pending : moves.pieces.guestsAt + Math.floor(what / MOST_PLACES), before = row[place];
    row[place] = isPending ? what - MOVED_PLACES : moves.movedTo(before, what % MOST_PLACES, place);
    return this.shifts.keep(key, what, group.numberOf(row), isPending ? -1 : moves.dueOf(before, row[place]));
  }

  grow() {
    const room = Math.ceil(GROWTH * this.count), [from, by, marks] = [this.from, this.by, this.marks].map(array => this.memory.longer(array, room));
    Object.assign(this, { from, by, marks });
    for (const cache of [this.deeds, this.shifts]) cache.setRoom(Math.min(MOST_CACHED, 1 << Math.ceil(Math.log2(room))));
  }

  // ---- the laws

  // The laws on effects that are broken behind a move. Where all hold before it, the move tells; where one is broken, what was received and sent since does.
  effectFaults(marks, origin, c) {
    const before = this.marks[origin] & EFFECT_BITS;
    if ((marks & IS_CHANGED) === 0) return this.isEndless ? 0 : before;
    if (this.isEndless || (before === 0 && mayGoBySections(this.wrong))) return marks & EFFECT_BITS;
    const earlier = orderOf(tracesOf(this.loaded(this.now)), this.plan.buffers.length);
    const bits = faultsIn(this.loaded(this.next), { earlier, cpu: c }).map(([law]) => bitOf(law));
    return bits.reduce((all, bit) => all | bit, 0) & EFFECT_BITS;
  }

  // The laws on where threads stand, who owns and who sleeps, that are broken in a state.
  stateFaults(row) {
    const { says, guestsAt, locksAt, tracesAt, owners, threads, brokens } = this.pieces, { standing } = this, stamp = ++this.stamp;
    let faults = 0, count = 0;
    for (let place = 0; place < tracesAt; place++) {
      const own = threads[row[place]], { works } = says[row[place]];
      faults |= brokens[row[place]];
      for (let i = 0; i < own.length; i++) {
        const t = own.charCodeAt(i);
        if (standing[t] === stamp) faults |= BIT.place;
        standing[t] = stamp;
      }
      count += own.length;
      if (works >= 0 && owners[row[locksAt + works]] !== place - guestsAt) faults |= BIT.owner;
    }
    return count === standing.length ? faults : faults | BIT.place;
  }

  // Whether two CPUs are inside one lock.
  twoInside(state) {
    const { groups, cpus } = this, inside = c => groups[c].insides[state[c]];
    for (let c = 1; c < cpus; c++) for (let other = 0; inside(c) >= 0 && other < c; other++) if (inside(other) === inside(c)) return BIT.inside;
    return 0;
  }

  // Whether each CPU's group has a mark. In a quiet state each rests.
  areAll(state, mark) {
    const { groups, cpus } = this;
    for (let c = 0; c < cpus; c++) if ((groups[c].kinds[state[c]] & mark) === 0) return false;
    return true;
  }

  // Keeps which laws are broken in a new state, and which of them for the first time; tells whether the state is wanted.
  seen(number, effects, state, { wanted, hasLaws }) {
    const isQuiet = this.areAll(state, RESTS);
    let broken = 0;
    if (hasLaws) {
      broken = effects | (this.isClean ? 0 : this.stateFaults(this.rowOf(state))) | (this.bySections ? 0 : this.twoInside(state));
      if (isQuiet && notStill(this.loaded(state)) !== null) broken |= BIT.still;
      this.marks[number] = broken;
      for (let bits = broken & ~this.everBroken; bits !== 0; bits &= bits - 1) this.broken.set(bits & -bits, number);
      this.everBroken |= broken;
    }
    if ((broken & wanted.bits) !== 0 || (wanted.isDeadlock && isQuiet && !this.areAll(state, ENDED))) return true;
    return wanted.test !== null && wanted.test(this.loaded(state));
  }

  // ---- schedules

  // The steps of a shortest schedule to a state, by moves.
  stepsTo(number) {
    const back = [];
    for (let at = number; at > 0; at = this.from[at]) back.push(...Array(this.by[at] % 2 === 1 ? 3 : 1).fill(this.by[at] >> 1));
    return back.reverse();
  }

  // The steps to what was found.
  stepsFound({ from, cpu, steps }) {
    return from < 0 ? [] : [...this.stepsTo(from), ...Array(steps).fill(cpu)];
  }

  // What a kernel is after steps that each change something: its pieces, the laws that are broken and whether it is stuck; or null.
  endOf(steps) {
    const kernel = new Kernel(this.isEndless ? { ...this.plan, trace: Infinity } : this.plan, this.wrong), buffers = this.plan.buffers.length;
    let last = null;
    for (const [i, c] of steps.entries()) {
      if (i === steps.length - 1) last = { earlier: orderOf(tracesOf(kernel), buffers), cpu: c };
      if (["", "misses"].includes(kernel.step(c)[1])) return null;
    }
    this.pieces.hold(kernel);
    const faults = faultsIn(kernel, last), laws = faults.map(([law]) => law);
    return { kernel, faults, key: [this.pieces.text(), ...laws].join() };
  }

  // As many steps to the same state, with fewer changes of the CPU where moving a CPU's steps together leads there too.
  calmed(steps) {
    const { key } = this.endOf(steps);
    let runs = runsOf(steps), better = runs;
    while (better) {
      runs = better;
      better = movesTogether(runs).find(moved => this.endOf(stepsOf(moved))?.key === key);
    }
    return stepsOf(runs);
  }
}
