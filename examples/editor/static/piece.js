// The piece as the server tells it: its bars, and each note as it was played and as it is written.
//
// Times are ticks of the MIDI file. A place in the score is a number of bars: 3.25 is a quarter of the way through the bar numbered 3.
// A note has channel, key, onset and end as played; begin and finish, its places in the score; from and to, these in ticks; its kind, note,
// short or grace; and tied, where it is written in several values.

const BLOCK = 64;
const LETTERS = ["C", "C♯", "D", "E♭", "E", "F", "F♯", "G", "A♭", "A", "B♭", "B"];

export function keyName(key) {
  return LETTERS[key % 12] + (Math.floor(key / 12) - 1);
}

export function isBlack(key) {
  return [1, 3, 6, 8, 10].includes(key % 12);
}

// the first place in a sorted list at which `after` holds
export function firstWhere(count, after) {
  let low = 0, high = count;
  while (low < high) {
    const middle = (low + high) >> 1;
    if (after(middle)) high = middle; else low = middle + 1;
  }
  return low;
}

export class Piece {
  constructor(told) {
    this.notes = new Map();
    this.texts = [];
    this.take(told);
  }

  // What a step has changed, or all of a piece that was opened. Answers the notes that were not there before.
  take(told) {
    const {first, texts, gone, notes, ...heads} = told;
    Object.assign(this, heads);
    this.texts.splice(first, texts.length, ...texts);
    this.texts.length = this.signatures.length;
    this.shapes = new Map(this.pins.map(([channel, bar, shape]) => [`${channel} ${bar}`, shape]));
    for (const [channel, key, onset] of gone) this.notes.delete(`${channel} ${key} ${onset}`);
    const come = [];
    for (const [channel, key, onset, end, begin, finish, kind, tied] of notes) {
      const id = `${channel} ${key} ${onset}`, note = {id, channel, key, onset, end, begin, finish, kind, tied};
      if (!this.notes.has(id)) come.push(note);
      this.notes.set(id, note);
    }
    this.#order();
    return come;
  }

  get end() {
    return this.starts[this.starts.length - 1];
  }

  get bars() {
    return this.signatures.length;
  }

  barAt(tick) {
    return Math.min(Math.max(firstWhere(this.starts.length, (bar) => this.starts[bar] > tick) - 1, 0), this.bars - 1);
  }

  // The tick of a place in the score.
  tickAt(place) {
    const bar = Math.min(Math.floor(place), this.bars - 1);
    return this.starts[bar] + (place - bar) * (this.starts[bar + 1] - this.starts[bar]);
  }

  // The place in the score at which a tick is.
  placeAt(tick) {
    const bar = this.barAt(tick);
    return bar + (tick - this.starts[bar]) / (this.starts[bar + 1] - this.starts[bar]);
  }

  // How many beats a bar has, by its signature: three quarters in 3/4, six eighths in 6/8.
  beatsOf(bar) {
    return Number(this.signatures[bar].split("/")[0]);
  }

  // The notes of which something lies between two ticks, played or written, in order.
  between(left, right) {
    const found = [];
    const stop = firstWhere(this.sorted.length, (at) => this.sorted[at].first > right);
    for (let block = 0; block * BLOCK < stop; block++) {
      if (this.latest[block] < left) continue;
      for (let at = block * BLOCK; at < Math.min((block + 1) * BLOCK, stop); at++) {
        if (this.sorted[at].last >= left) found.push(this.sorted[at]);
      }
    }
    return found;
  }

  #order() {
    for (const note of this.notes.values()) {
      note.from = this.tickAt(note.begin);
      note.to = this.tickAt(note.finish);
      note.first = Math.min(note.onset, note.from);
      note.last = Math.max(note.end, note.to);
    }
    this.sorted = [...this.notes.values()].sort((one, other) => one.first - other.first || one.key - other.key);
    this.latest = [];
    this.sorted.forEach((note, at) => {
      const block = Math.floor(at / BLOCK);
      this.latest[block] = Math.max(this.latest[block] ?? 0, note.last);
    });
  }
}
