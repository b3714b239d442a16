"use strict";
// The group of a CPU: its piece, those of its threads and of its pending queue, and its trace, as one number. A group is a tree of pairs of numbers, whose
// leaves are the pieces: the children of node n are 2n and 2n + 1, and node 1 is the root. What a CPU does next depends on its group and on one lock.

class Group {
  c; moves; inner; memory; places; leaves; nodes; pairs;
  // of each group: what it says, the lock that the CPU is inside of, or -1, and the piece of the pending queue
  kinds; insides; pendings;

  // `inner` has the pairs within trees.
  constructor(c, moves, inner, memory) {
    const { tracesAt, guestsAt, isEndless } = moves.pieces, pending = tracesAt - guestsAt + c, trace = isEndless ? [] : [tracesAt + c];
    const places = [c, ...moves.homes[c], pending, ...trace], leaves = places.length;
    Object.assign(this, { c, moves, inner, memory, places, pending, leaves, nodes: new Int32Array(2 * leaves), pairs: new Pairs(memory) });
    Object.assign(this, { kinds: new Uint8Array(ROOM), insides: new Int8Array(ROOM), pendings: new Int32Array(ROOM) });
    memory.take(6 * ROOM);
  }

  // The number of a row's group, which gets one if it has none.
  numberOf(row) {
    const { places, nodes, leaves, inner, pairs } = this;
    for (let i = 0; i < leaves; i++) nodes[leaves + i] = row[places[i]];
    for (let node = leaves - 1; node > 1; node--) nodes[node] = inner.number(nodes[2 * node], nodes[2 * node + 1]);
    const next = pairs.count, number = pairs.number(nodes[2], nodes[3]);
    if (number === next) this.tell(number, row);
    return number;
  }

  // Keeps what a new group says.
  tell(number, row) {
    if (number === this.kinds.length) this.grow();
    this.kinds[number] = this.moves.kindOf(row, this.c);
    this.insides[number] = this.moves.pieces.says[row[this.c]].inside;
    this.pendings[number] = row[this.pending];
  }

  grow() {
    [this.kinds, this.insides, this.pendings] = [this.kinds, this.insides, this.pendings].map(array => this.memory.longer(array));
  }

  // Puts the pieces of a group into a row.
  open(number, row) {
    const { places, nodes, leaves, pairs } = this, { keys } = this.inner;
    nodes[2] = pairs.keys[2 * number];
    nodes[3] = pairs.keys[2 * number + 1];
    for (let node = 2; node < leaves; node++) {
      nodes[2 * node] = keys[2 * nodes[node]];
      nodes[2 * node + 1] = keys[2 * nodes[node] + 1];
    }
    for (let i = 0; i < leaves; i++) row[places[i]] = nodes[leaves + i];
  }
}
