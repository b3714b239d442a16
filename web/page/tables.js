"use strict";
// Tables of whole numbers, in typed arrays that grow within a limit of bytes.

class MemoryFull extends Error {}

// How many bytes tables take, and how many they may.
class Memory {
  constructor(most = Infinity) {
    Object.assign(this, { most, used: 0 });
  }

  take(bytes) {
    if (this.used + bytes > this.most) throw new MemoryFull(`more than ${this.most} bytes`);
    this.used += bytes;
  }

  // A new array. The browser may have no memory for it.
  made(Kind, length) {
    try {
      return new Kind(length);
    } catch (fault) {
      if (fault instanceof RangeError) throw new MemoryFull(`no array of ${length} numbers`);
      throw fault;
    }
  }

  // A longer array that begins with the same.
  longer(array, length = 2 * array.length) {
    this.take((length - array.length) * array.BYTES_PER_ELEMENT);
    const more = this.made(array.constructor, length);
    more.set(array);
    return more;
  }
}

// A hash of two numbers.
function mixed(left, right) {
  let hash = Math.imul(left, 0x9e3779b1) ^ Math.imul(right, 0x85ebca6b);
  hash = Math.imul(hash ^ (hash >>> 15), 0x2c1b3c6d);
  return hash ^ (hash >>> 13);
}

const ENTRY = 0xffffff, TAG = ~ENTRY; // a slot has an entry's number and one more, and eight bits of its hash; 0 is free
const MOST_FILLED = 0.75, GROWTH = 1.5, ROOM = 256;

// One number for each entry: the first has 0, and each new one the next. Entries are kept one behind the other in `keys`, `width` numbers each.
class Numbered {
  memory; width; keys; slots; mask; count = 0;

  constructor(memory, Kind, width) {
    memory.take(ROOM * (width * Kind.BYTES_PER_ELEMENT + 8));
    Object.assign(this, { memory, width, keys: new Kind(ROOM * width), slots: new Int32Array(2 * ROOM), mask: 2 * ROOM - 1 });
  }

  isFull() {
    return this.width * this.count === this.keys.length || this.count >= MOST_FILLED * this.slots.length;
  }

  // Makes room for more entries.
  grow() {
    const { memory, keys, width, slots, count } = this;
    if (count === ENTRY - 1) throw new MemoryFull(`more than ${count} entries`);
    if (width * count === keys.length) this.keys = memory.longer(keys, width * Math.min(ENTRY - 1, Math.ceil(GROWTH * count)));
    if (count < MOST_FILLED * slots.length) return;
    memory.take(4 * slots.length);
    this.slots = memory.made(Int32Array, 2 * slots.length);
    this.mask = this.slots.length - 1;
    for (let number = 0; number < count; number++) this.enter(number, this.hashAt(width * number));
  }

  // Puts an entry's number into the slots.
  enter(number, hash) {
    const { slots, mask } = this;
    let slot = hash & mask;
    while (slots[slot] !== 0) slot = (slot + 1) & mask;
    slots[slot] = (hash & TAG) | (number + 1);
  }
}

// Pairs of numbers.
class Pairs extends Numbered {
  constructor(memory) {
    super(memory, Int32Array, 2);
  }

  hashAt(at) {
    return mixed(this.keys[at], this.keys[at + 1]);
  }

  // The number of a pair, which gets one if it has none.
  number(left, right) {
    const { keys, slots, mask } = this, hash = mixed(left, right), tag = hash & TAG;
    for (let slot = hash & mask, kept = slots[slot]; kept !== 0; slot = (slot + 1) & mask, kept = slots[slot]) {
      const at = 2 * (kept & ENTRY) - 2;
      if ((kept & TAG) === tag && keys[at] === left && keys[at + 1] === right) return at >> 1;
    }
    if (this.isFull()) this.grow();
    this.keys[2 * this.count] = left;
    this.keys[2 * this.count + 1] = right;
    this.enter(this.count, hash);
    return this.count++;
  }
}

// Rows of whole numbers that are not negative, of 16 bits each until one has more.
class Rows extends Numbered {
  constructor(memory, width) {
    super(memory, Uint16Array, width);
  }

  hashAt(at) {
    const { keys, width } = this;
    let hash = 0;
    for (let i = 0; i < width; i++) hash = mixed(hash, keys[at + i]);
    return hash;
  }

  // The number of a row, which gets one if it has none.
  number(row) {
    const { keys, slots, mask, width } = this;
    let hash = 0;
    for (let i = 0; i < width; i++) hash = mixed(hash, row[i]);
    const tag = hash & TAG;
    for (let slot = hash & mask, kept = slots[slot]; kept !== 0; slot = (slot + 1) & mask, kept = slots[slot]) {
      if ((kept & TAG) !== tag) continue;
      const at = width * ((kept & ENTRY) - 1);
      let same = 0;
      while (same < width && keys[at + same] === row[same]) same++;
      if (same === width) return (kept & ENTRY) - 1;
    }
    return this.add(row, hash);
  }

  add(row, hash) {
    const { width } = this;
    let bits = 0;
    for (let i = 0; i < width; i++) bits |= row[i];
    if (bits > 0xffff && this.keys.BYTES_PER_ELEMENT === 2) this.widen();
    if (this.isFull()) this.grow();
    const { keys } = this;
    for (let i = 0, at = width * this.count; i < width; i++) keys[at + i] = row[i];
    this.enter(this.count, hash);
    return this.count++;
  }

  // Makes room for numbers of 32 bits.
  widen() {
    this.memory.take(this.keys.byteLength);
    const keys = this.memory.made(Int32Array, this.keys.length);
    keys.set(this.keys);
    this.keys = keys;
  }

  // Puts the numbers of a row into another.
  open(number, row) {
    const { keys, width } = this, at = width * number;
    for (let i = 0; i < width; i++) row[i] = keys[at + i];
  }
}

// Two numbers for each pair of numbers, kept until other pairs take their place: what is not there has to be made again. A pair has two places.
const CACHED = 4; // numbers of an entry
class Cache {
  constructor(memory, room) {
    Object.assign(this, { memory, entries: new Int32Array(0), mask: 0 });
    this.setRoom(room);
  }

  // Makes room for so many entries.
  setRoom(room) {
    const { memory, entries } = this;
    if (entries.length === CACHED * room) return;
    memory.take(4 * CACHED * room - entries.byteLength);
    Object.assign(this, { entries: memory.made(Int32Array, CACHED * room).fill(-1), mask: room - 1 });
    for (let at = 0; at < entries.length; at += CACHED) if (entries[at] >= 0) this.keep(entries[at], entries[at + 1], entries[at + 2], entries[at + 3]);
  }

  // Where the entry of a pair is, if it is kept.
  placeOf(one, other) {
    const { entries } = this, first = CACHED * (mixed(one, other) & this.mask);
    return entries[first] === one && entries[first + 1] === other ? first : first ^ CACHED;
  }

  has(at, one, other) {
    return this.entries[at] === one && this.entries[at + 1] === other;
  }

  // Keeps an entry in its first place, and in the second what was there. Returns where it is.
  keep(one, other, first, second) {
    const { entries, mask } = this, at = CACHED * (mixed(one, other) & mask), behind = at ^ CACHED;
    for (let i = 0; i < CACHED; i++) entries[behind + i] = entries[at + i];
    entries[at] = one;
    entries[at + 1] = other;
    entries[at + 2] = first;
    entries[at + 3] = second;
    return at;
  }
}
