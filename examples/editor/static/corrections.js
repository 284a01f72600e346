// Corrections by the pointer: notes are drawn, dragged and lengthened on the roll, and barlines dragged by their marks in the ruler.

import {GUTTER, RULER} from "./view.js";
import {firstWhere} from "./piece.js";

const HOLD = 6; // pixels around an edge at which it is taken hold of
const EDGE = 16; // pixels beside the edges of the roll within which a drag scrolls
const STILL = 4; // pixels that a pointer may stray in a click

// The lines of the step that gives a note another place, key or end; or that adds one, where there is none yet.
export function linesOf(note, to) {
  const add = `add ${to.channel} ${to.key} ${to.onset} ${to.end}`;
  if (!note) return [add];
  if (to.key === note.key && to.end - to.onset === note.end - note.onset) return [`move ${note.channel} ${note.key} ${note.onset} ${to.onset}`];
  return [`drop ${note.channel} ${note.key} ${note.onset}`, add];
}

export class Corrections {
  constructor(roll, editor, view) {
    Object.assign(this, {roll, editor, view, drag: null});
    const {canvas} = roll;
    canvas.addEventListener("pointerdown", (event) => this.#press(event));
    canvas.addEventListener("pointermove", (event) => this.#move(event));
    canvas.addEventListener("pointerup", (event) => this.#release(event));
    canvas.addEventListener("pointercancel", () => this.cancel());
    canvas.addEventListener("keydown", ({key}) => { if (key === "Escape") this.cancel(); });
  }

  // Deletes the selected note.
  async drop() {
    const {editor, view} = this, note = editor.selected;
    if (!note) {
      editor.tell("Select a note first: click on it, or press ← or →.");
      return;
    }
    const point = {x: view.x(note.onset), y: view.y(note.key)};
    if (await editor.step([`drop ${note.channel} ${note.key} ${note.onset}`], point)) editor.selectPlace(note.onset, note.key);
  }

  cancel() {
    this.drag = this.roll.draft = null;
    this.roll.refresh();
  }

  #press(event) {
    if (event.button !== 0) return;
    const at = this.#at(event), bar = at.y < RULER ? this.#barlineAt(at.x) : null, note = at.y < RULER ? null : this.#noteAt(at);
    this.roll.canvas.setPointerCapture(event.pointerId);
    if (bar !== null) this.editor.selectBarline(bar);
    else if (note) this.editor.selectNote(note);
    this.drag = {start: at, bar, note, ending: note && this.#isEnd(note, at), moved: false};
  }

  #move(event) {
    const at = this.#at(event), {drag} = this;
    if (!drag) {
      this.roll.canvas.style.cursor = this.#cursorAt(at);
      return;
    }
    drag.moved ||= Math.hypot(at.x - drag.start.x, at.y - drag.start.y) > STILL;
    if (!drag.moved) return;
    this.#scroll(drag, at.x);
    this.roll.draft = this.#draft(drag, at);
    this.roll.refresh();
  }

  // Scrolls on while something is dragged to an edge, and keeps where the drag began.
  #scroll(drag, x) {
    const {view} = this, {left} = view, low = GUTTER + EDGE, high = view.width - EDGE;
    if (x > high && drag.start.x < high) view.scroll(EDGE);
    else if (x < low && drag.start.x > low) view.scroll(-EDGE);
    drag.start.x -= (view.left - left) * view.scale;
  }

  async #release(event) {
    const {drag} = this, {draft} = this.roll, at = this.#at(event);
    this.drag = null;
    if (!drag) return;
    if (!drag.moved && !drag.note && drag.bar === null) this.#place(at);
    if (draft?.tick !== undefined) await this.editor.step([`barline ${draft.bar} ${draft.tick}`], at);
    else if (draft?.note) await this.editor.step(linesOf(drag.note, draft.note), at);
    if (this.roll.draft === draft) this.roll.draft = null; // and not what is dragged meanwhile
    this.roll.refresh();
  }

  #place(at) {
    this.editor.selectPlace(Math.max(Math.round(this.view.tick(at.x)), 0), this.view.key(at.y));
  }

  // What is drawn while something is dragged, as it would be made.
  #draft(drag, at) {
    const ticks = Math.round((at.x - drag.start.x) / this.view.scale);
    if (drag.bar !== null) return drag.bar === 0 ? null : {bar: drag.bar, tick: Math.max(this.editor.piece.starts[drag.bar] + ticks, 0)};
    if (drag.start.y < RULER) return null;
    if (!drag.note) return {note: this.#drawn(drag.start, at)};
    const {id, channel, key, onset, end} = drag.note;
    if (drag.ending) return {hidden: id, note: {channel, key, onset, end: Math.max(end + ticks, onset)}};
    const to = Math.max(onset + ticks, 0), up = this.view.key(at.y) - this.view.key(drag.start.y);
    return {hidden: id, note: {channel, key: Math.min(Math.max(key + up, 0), 127), onset: to, end: to + end - onset}};
  }

  #drawn(start, at) {
    const ticks = [start.x, at.x].map((x) => Math.max(Math.round(this.view.tick(x)), 0)).sort((one, other) => one - other);
    return {channel: this.editor.channel, key: this.view.key(start.y), onset: ticks[0], end: ticks[1]};
  }

  #cursorAt(at) {
    if (at.y < RULER) return this.#barlineAt(at.x) ? "ew-resize" : "default";
    const note = this.#noteAt(at);
    return !note ? "crosshair" : this.#isEnd(note, at) ? "e-resize" : "grab";
  }

  #at(event) {
    const box = this.roll.canvas.getBoundingClientRect();
    return {x: event.clientX - box.left, y: event.clientY - box.top};
  }

  // The note that is seen at a point; of several the one in the selected voice, or the shortest.
  #noteAt({x, y}) {
    const {view} = this, key = view.key(y), tick = view.tick(x), near = HOLD / 2 / view.scale;
    if (x < GUTTER) return null;
    const found = this.editor.piece.between(tick - near, tick + near)
      .filter((note) => note.key === key && note.onset - near <= tick && tick <= note.end + near);
    const rank = (note) => (note.channel === this.editor.channel ? 0 : 1e10) + note.end - note.onset;
    return found.sort((one, other) => rank(one) - rank(other))[0] ?? null;
  }

  #isEnd(note, {x}) {
    const end = this.view.x(note.end);
    return Math.abs(x - end) < HOLD && x - this.view.x(note.onset) > HOLD;
  }

  #barlineAt(x) {
    const {view} = this, {starts} = this.editor.piece, tick = view.tick(x);
    const after = firstWhere(starts.length, (bar) => starts[bar] >= tick);
    const near = [after - 1, after].filter((bar) => bar >= 0 && bar < starts.length && Math.abs(view.x(starts[bar]) - x) <= HOLD + 1);
    return near.sort((one, other) => Math.abs(view.x(starts[one]) - x) - Math.abs(view.x(starts[other]) - x))[0] ?? null;
  }
}
