// The piano roll: what was played and what is written of it, drawn on a canvas, and only what is seen.
//
// A note as it was played is a filled bar. Voices are told apart by colour, by texture, and by their number where there is room. Around the
// bar stands a frame where the note is written. So what is early or late shows by the distance, and by an arrow from where it was played to
// where it is written. A dot over the frame is a short note, a stroke and a `g` a grace note, and an arc below it a note that is written in
// several values, which are tied.

import {GUTTER, RULER} from "./view.js";
import {isBlack, keyName} from "./piece.js";

const COLOURS = ["#0b63a5", "#b4480b", "#087a55", "#8a3c86", "#6b5b00", "#005f73", "#a31545", "#4d4d9f"];
const TEXTURES = [[], [[0, 6, 6, 0]], [[0, 0, 6, 6]], [[3, 0, 3, 6]]]; // lines within a square of six pixels
const INK = "#1c1c1c", PAPER = "#ffffff", SHADE = "#f1f1ee", LINE = "#8c8c86", FAINT = "#dcdcd6";
const NEAR = 3; // pixels between played and written from which on there is an arrow
const SMALL = 7; // pixels of a key below which marks are left out

export function colourOf(piece, channel) {
  return COLOURS[piece.channels.indexOf(channel) % COLOURS.length];
}

// A fill for the notes of a voice, in its colour and texture.
function fillOf(piece, channel, pen) {
  const tile = new OffscreenCanvas(6, 6), brush = tile.getContext("2d");
  brush.fillStyle = colourOf(piece, channel);
  brush.fillRect(0, 0, 6, 6);
  brush.strokeStyle = PAPER;
  brush.lineWidth = 1.2;
  for (const [left, top, right, bottom] of TEXTURES[piece.channels.indexOf(channel) % TEXTURES.length]) {
    brush.beginPath();
    brush.moveTo(left, top);
    brush.lineTo(right, bottom);
    brush.stroke();
  }
  return pen.createPattern(tile, "repeat");
}

export class Roll {
  constructor(canvas, editor, view) {
    this.canvas = canvas;
    this.editor = editor;
    this.view = view;
    this.draft = null; // a note or a barline while it is dragged: {note} with `hidden`, the id of the one it stands for, or {bar, tick}
    this.cursor = null; // the tick that is heard
    this.pen = canvas.getContext("2d");
    this.fills = new Map(editor.piece.channels.map((channel) => [channel, fillOf(editor.piece, channel, this.pen)]));
    new ResizeObserver(() => this.#resize()).observe(canvas);
  }

  // Draws anew before the screen is next shown, once however often it is asked for.
  refresh() {
    this.asked ??= requestAnimationFrame(() => this.draw());
  }

  #resize() {
    const {width, height} = this.canvas.getBoundingClientRect(), dots = window.devicePixelRatio;
    this.canvas.width = width * dots;
    this.canvas.height = height * dots;
    Object.assign(this.view, {width, height});
    if (!this.begun) this.view.begin(8);
    this.begun = true;
    this.pen.setTransform(dots, 0, 0, dots, 0, 0);
    this.refresh();
  }

  draw() {
    const {view, pen} = this;
    cancelAnimationFrame(this.asked);
    this.asked = null;
    pen.fillStyle = PAPER;
    pen.fillRect(0, 0, view.width, view.height);
    this.#keys();
    this.#bars();
    const seen = this.editor.piece.between(view.left, view.right).filter((note) => note.id !== this.draft?.hidden);
    this.#frames(seen);
    this.#played(seen);
    if (view.size >= SMALL) this.#marks(seen);
    this.#selection();
    this.#draftAndCursor();
    this.#names();
    this.#ruler();
  }

  #keys() {
    const {view, pen} = this;
    pen.fillStyle = SHADE;
    for (let key = 0; key < 128; key++) if (isBlack(key)) pen.fillRect(GUTTER, view.y(key), view.width, view.size);
    pen.fillStyle = FAINT;
    for (let key = 0; key < 128; key += 12) pen.fillRect(GUTTER, view.y(key) + view.size, view.width, 1);
  }

  // Barlines, and the beats of each bar where they are not too close.
  #bars() {
    const {view, pen} = this, {piece} = this.editor, [first, last] = view.bars();
    for (let bar = first; bar <= last + 1; bar++) {
      const x = view.x(piece.starts[bar]);
      pen.fillStyle = bar === this.editor.barline ? INK : LINE;
      pen.fillRect(Math.round(x) - (bar === this.editor.barline ? 1 : 0), RULER, bar === this.editor.barline ? 3 : 1, view.height);
      const beats = bar <= last ? piece.beatsOf(bar) : 0;
      const beat = (view.x(piece.starts[bar + 1]) - x) / beats;
      pen.fillStyle = FAINT;
      for (let at = 1; at < beats && beat > 8; at++) pen.fillRect(Math.round(x + at * beat), RULER, 1, view.height);
    }
  }

  // Where notes are written. Each colour is one path, so that many notes are drawn at once.
  #frames(seen) {
    const {view, pen} = this;
    if (view.size < 5) return;
    this.#byVoice(seen, (notes) => {
      pen.beginPath();
      for (const note of notes) {
        if (note.kind === "grace") continue;
        pen.rect(view.x(note.from) + 0.5, view.y(note.key) + 0.5, Math.max((note.to - note.from) * view.scale - 1, 1), view.size - 1);
      }
      pen.globalAlpha = 0.16;
      pen.fill();
      pen.globalAlpha = 1;
      pen.stroke();
    });
  }

  #played(seen) {
    const {view, pen} = this, inset = view.size >= SMALL ? Math.max(2, Math.round(view.size / 4)) : 0;
    this.#byVoice(seen, (notes, channel) => {
      pen.fillStyle = this.fills.get(channel);
      pen.beginPath();
      for (const note of notes) {
        pen.rect(view.x(note.onset), view.y(note.key) + inset, Math.max((note.end - note.onset) * view.scale, 1.5), view.size - 2 * inset);
      }
      pen.fill();
    });
  }

  #byVoice(seen, draw) {
    const {piece} = this.editor, {pen} = this;
    pen.lineWidth = 1;
    for (const channel of piece.channels) {
      pen.fillStyle = pen.strokeStyle = colourOf(piece, channel);
      draw(seen.filter((note) => note.channel === channel), channel);
    }
  }

  #marks(seen) {
    const {view, pen} = this, several = this.editor.piece.channels.length > 1;
    pen.font = `bold ${Math.max(Math.min(view.size - 4, 11), 8)}px sans-serif`;
    pen.textBaseline = "middle";
    for (const note of seen) {
      const x = view.x(note.from), width = (note.to - note.from) * view.scale, y = view.y(note.key);
      pen.fillStyle = pen.strokeStyle = INK;
      if (note.kind === "grace") this.#grace(note);
      else this.#arrow(note);
      if (note.kind === "short") this.#dot(x + width / 2, y - 3);
      if (note.tied && width > 6) this.#arc(x, x + width, y + view.size);
      if (several && (note.end - note.onset) * view.scale > 24 && view.size > 9) this.#number(note);
    }
  }

  #number(note) {
    const {view, pen} = this, x = view.x(note.onset) + 8, y = view.y(note.key) + 2;
    pen.fillStyle = colourOf(this.editor.piece, note.channel);
    pen.fillRect(x, y, 3 + pen.measureText(note.channel).width, view.size - 4);
    pen.fillStyle = PAPER;
    pen.fillText(note.channel, x + 1.5, view.y(note.key) + view.size / 2 + 0.5);
  }

  // From where a note was played to where it is written, dark with a light edge.
  #arrow(note) {
    const {view, pen} = this, from = view.x(note.onset), to = view.x(note.from), y = view.y(note.key) + view.size / 2;
    if (Math.abs(from - to) < NEAR) return;
    const back = to > from ? -4 : 4;
    pen.beginPath();
    pen.moveTo(from, y);
    pen.lineTo(to, y);
    pen.moveTo(to + back, y - 3);
    pen.lineTo(to, y);
    pen.lineTo(to + back, y + 3);
    for (const [width, colour] of [[3.5, PAPER], [1.3, INK]]) {
      pen.lineWidth = width;
      pen.strokeStyle = colour;
      pen.stroke();
    }
    pen.lineWidth = 1;
  }

  #grace(note) {
    const {view, pen} = this, x = view.x(note.onset), y = view.y(note.key);
    pen.beginPath();
    pen.moveTo(x - 3, y + view.size + 1);
    pen.lineTo(x + 8, y - 1);
    pen.stroke();
    pen.fillText("g", x - 9, y + view.size / 2);
  }

  #dot(x, y) {
    this.pen.beginPath();
    this.pen.arc(x, y, 2, 0, 2 * Math.PI);
    this.pen.fill();
  }

  #arc(left, right, y) {
    this.pen.beginPath();
    this.pen.moveTo(left + 2, y + 1);
    this.pen.quadraticCurveTo((left + right) / 2, y + 6, right - 2, y + 1);
    this.pen.stroke();
  }

  #selection() {
    const note = this.editor.selected, {view, pen} = this;
    if (note && note.id !== this.draft?.hidden) this.#outline(note);
    if (note || this.editor.barline !== null) return;
    const x = view.x(this.editor.place.tick), y = view.y(this.editor.place.key) + view.size / 2;
    pen.strokeStyle = INK;
    pen.beginPath();
    pen.moveTo(x - 5, y);
    pen.lineTo(x + 5, y);
    pen.moveTo(x, y - 5);
    pen.lineTo(x, y + 5);
    pen.stroke();
  }

  #outline(note) {
    const {view, pen} = this, x = view.x(note.onset), width = Math.max((note.end - note.onset) * view.scale, 2);
    pen.strokeStyle = INK;
    pen.lineWidth = 2;
    pen.strokeRect(x - 1.5, view.y(note.key) - 1.5, width + 3, view.size + 3);
    pen.fillStyle = INK;
    pen.fillRect(x + width - 1, view.y(note.key) + 1, 4, view.size - 2);
    pen.lineWidth = 1;
  }

  #draftAndCursor() {
    const {view, pen, draft} = this;
    if (draft?.note) {
      pen.fillStyle = colourOf(this.editor.piece, draft.note.channel);
      pen.fillRect(view.x(draft.note.onset), view.y(draft.note.key), (draft.note.end - draft.note.onset) * view.scale, view.size);
      this.#outline(draft.note);
    }
    if (draft?.tick !== undefined) this.#line(draft.tick, [2, 3]);
    if (this.cursor !== null) this.#line(this.cursor, []);
  }

  #line(tick, dashes) {
    const {view, pen} = this;
    pen.strokeStyle = INK;
    pen.lineWidth = 2;
    pen.setLineDash(dashes);
    pen.beginPath();
    pen.moveTo(view.x(tick), RULER);
    pen.lineTo(view.x(tick), view.height);
    pen.stroke();
    pen.setLineDash([]);
    pen.lineWidth = 1;
  }

  // Names of keys: each C, or all where they are large.
  #names() {
    const {view, pen} = this;
    pen.fillStyle = PAPER;
    pen.fillRect(0, 0, GUTTER, view.height);
    pen.fillStyle = INK;
    pen.font = "11px sans-serif";
    pen.textBaseline = "middle";
    for (let key = 0; key < 128; key++) {
      if (key % 12 === 0 || view.size > 13) pen.fillText(keyName(key), 6, view.y(key) + view.size / 2);
    }
    pen.fillStyle = LINE;
    pen.fillRect(GUTTER - 1, RULER, 1, view.height);
  }

  // Numbers of bars, the marks by which barlines are taken hold of, and which bars are pinned.
  #ruler() {
    const {view, pen} = this, {piece} = this.editor, [first, last] = view.bars();
    pen.fillStyle = SHADE;
    pen.fillRect(0, 0, view.width, RULER);
    pen.font = "12px sans-serif";
    const wide = (view.right - view.left) / (last - first + 1) * view.scale, each = wide > 26 ? 1 : 10 ** Math.ceil(Math.log10(40 / wide));
    for (let bar = first; bar <= last + 1; bar++) {
      const x = view.x(piece.starts[bar]);
      if (x < GUTTER - 1 || bar % each && bar !== this.editor.barline) continue;
      pen.fillStyle = bar === this.editor.barline ? INK : LINE;
      if (bar > 0) this.#handle(x);
      pen.fillStyle = INK;
      if (bar < piece.bars) pen.fillText(bar + 1, x + 4, 11);
      this.#pins(bar, x + 8 + pen.measureText(bar + 1).width);
    }
  }

  #handle(x) {
    this.pen.beginPath();
    this.pen.moveTo(x - 5, RULER - 11);
    this.pen.lineTo(x + 5, RULER - 11);
    this.pen.lineTo(x, RULER);
    this.pen.fill();
  }

  #pins(bar, x) {
    const {piece} = this.editor, channels = piece.channels.filter((channel) => piece.shapes.has(`${channel} ${bar}`));
    if (channels.length) this.pen.fillText(`pinned ${channels.join(" ")}`, x, 11);
  }
}
