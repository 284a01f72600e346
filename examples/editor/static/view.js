// Which part of the piece is seen: ticks from left to right, keys from bottom to top, and how large they are.

export const RULER = 34; // pixels above the notes: bar numbers and barlines to be taken hold of
export const GUTTER = 40; // pixels left of the notes: names of keys

const WIDEST = 4; // pixels of a tick at most
const TALLEST = 28; // pixels of a key at most
const LOWEST = 3;
const NARROWEST = 4; // pixels of a bar, so that not all of a long piece is drawn at once

export class View {
  constructor(piece) {
    this.width = this.height = 100;
    this.left = 0; // the tick at the left edge
    this.scale = 0.1; // pixels of a tick
    this.top = 84; // the key at the upper edge
    this.size = 12; // pixels of a key
    this.piece = piece;
  }

  // Shows some bars from the first one on, with the keys of the piece in the middle.
  begin(bars) {
    const keys = this.piece.sorted.map((note) => note.key);
    const low = keys.reduce((one, other) => Math.min(one, other), 127), high = keys.reduce((one, other) => Math.max(one, other), 0);
    const end = this.piece.starts[Math.min(bars, this.piece.bars)];
    this.size = Math.min(Math.max((this.height - RULER) / (high - low + 5), 7), 18);
    this.scale = (this.width - GUTTER) / (end * 1.02);
    this.left = -0.01 * end;
    this.top = (high + low) / 2 + (this.height - RULER) / this.size / 2 + 0.5;
    this.#stay();
  }

  get right() {
    return this.tick(this.width);
  }

  x(tick) {
    return GUTTER + (tick - this.left) * this.scale;
  }

  // the upper edge of a key
  y(key) {
    return RULER + (this.top - key - 1) * this.size;
  }

  tick(x) {
    return this.left + (x - GUTTER) / this.scale;
  }

  key(y) {
    return Math.min(Math.max(Math.floor(this.top - (y - RULER) / this.size), 0), 127);
  }

  scroll(pixels, up = 0) {
    this.left += pixels / this.scale;
    this.top += up / this.size;
    this.#stay();
  }

  zoom(factor, x = this.width / 2) {
    const tick = this.tick(x);
    this.scale *= factor;
    this.#stay();
    this.left = tick - (x - GUTTER) / this.scale;
    this.#stay();
  }

  zoomKeys(factor, y = this.height / 2) {
    const key = this.top - (y - RULER) / this.size;
    this.size = Math.min(Math.max(this.size * factor, LOWEST), TALLEST);
    this.top = key + (y - RULER) / this.size;
    this.#stay();
  }

  // Scrolls to where a tick is at the left.
  begins(tick) {
    this.left = tick - 10 / this.scale;
    this.#stay();
  }

  // Scrolls as little as is needed to see a span of ticks, and a key.
  show(first, last, key = null) {
    const margin = 40 / this.scale, y = key === null ? RULER : this.y(key);
    if (first < this.left + margin) this.left = first - margin;
    else if (last > this.right - margin) this.left += Math.min(last - this.right + margin, first - margin - this.left);
    if (y < RULER || y + this.size > this.height) this.top = key + (this.height - RULER) / this.size / 2;
    this.#stay();
  }

  // The bars that are seen: the first and the last.
  bars() {
    return [this.piece.barAt(this.left), this.piece.barAt(Math.min(this.right, this.piece.end - 1))];
  }

  #stay() {
    const end = this.piece.end, room = this.width - GUTTER, rows = (this.height - RULER) / this.size;
    this.scale = Math.min(Math.max(this.scale, 0.9 * room / end, NARROWEST * this.piece.bars / end), WIDEST);
    this.left = Math.min(Math.max(this.left, -30 / this.scale), Math.max(end - 0.8 * room / this.scale, -30 / this.scale));
    this.top = Math.min(Math.max(this.top, Math.min(rows, 128)), 128);
  }
}
