// Everything by keys: what each key does while the roll has the focus, and the few keys that are good everywhere.

import {linesOf} from "./corrections.js";

const STEP = 48; // the least step of a note or barline is a 48th of a quarter note; with Shift it is twelve times as far

export class Keys {
  constructor(desk) {
    Object.assign(this, desk, {turn: Promise.resolve()});
    this.roll.canvas.addEventListener("keydown", (event) => this.#take(event, this.#onRoll(event)));
    document.addEventListener("keydown", (event) => this.#take(event, this.#everywhere(event)));
  }

  #take(event, action) {
    if (!action || event.defaultPrevented) return;
    event.preventDefault();
    action();
  }

  #everywhere(event) {
    const {editor} = this, key = event.key.toLowerCase();
    if (!event.ctrlKey && !event.metaKey) return null;
    if (key === "z") return this.#inTurn(() => event.shiftKey ? editor.redo() : editor.undo());
    if (key === "y") return this.#inTurn(() => editor.redo());
    return null;
  }

  #onRoll(event) {
    if (event.ctrlKey || event.metaKey) return null;
    const {editor, view} = this, far = event.shiftKey ? 12 : 1;
    const right = {ArrowLeft: -1, ArrowRight: 1}[event.key], up = {ArrowUp: 1, ArrowDown: -1}[event.key];
    if (event.altKey && right) return this.#inTurn(() => this.#nudge(right * far));
    if (event.altKey && up) return this.#inTurn(() => this.#transpose(up * far));
    if (right) return () => this.#next(right);
    if (up) return () => this.#scrolled(() => view.scroll(0, up * 3 * view.size));
    return {
      "[": this.#inTurn(() => this.#lengthen(-1)), "]": this.#inTurn(() => this.#lengthen(1)),
      "{": this.#inTurn(() => this.#lengthen(-12)), "}": this.#inTurn(() => this.#lengthen(12)),
      ",": () => this.#place(-1 / 2), ".": () => this.#place(1 / 2), "<": () => this.#place(-4), ">": () => this.#place(4),
      n: this.#inTurn(() => this.#add()), Delete: this.#inTurn(this.commands.drop), Backspace: this.#inTurn(this.commands.drop),
      b: () => this.#barline(1), B: () => this.#barline(-1), f: () => this.commands.fit(),
      v: () => this.#voice(1), V: () => this.#voice(-1), r: () => this.commands.rhythms(),
      "+": () => this.#scrolled(() => view.zoom(1.25)), "=": () => this.#scrolled(() => view.zoom(1.25)),
      "-": () => this.#scrolled(() => view.zoom(0.8)),
      z: () => this.#scrolled(() => view.zoomKeys(1.25)), Z: () => this.#scrolled(() => view.zoomKeys(0.8)),
      PageDown: () => this.#scrolled(() => view.scroll(0.8 * view.width)),
      PageUp: () => this.#scrolled(() => view.scroll(-0.8 * view.width)),
      Home: () => this.#scrolled(() => view.begins(0)), End: () => this.#scrolled(() => view.begins(editor.piece.end)),
      " ": () => this.commands.play(event.shiftKey ? "score" : "performance"), "?": () => this.commands.help(),
      Escape: () => editor.selectPlace(editor.place.tick, editor.place.key),
    }[event.key] ?? null;
  }

  // Of edits by keys that are pressed fast each waits for the one before, and is made on what that has left selected.
  #inTurn(edit) {
    return () => {
      const made = this.turn.then(edit);
      this.turn = made.catch(() => {});
    };
  }

  #scrolled(change) {
    change();
    this.commands.scrolled();
  }

  // The note after the selected one, or before it; without one, the next to where notes are added.
  #next(by) {
    const {editor} = this, {sorted} = editor.piece, at = sorted.indexOf(editor.selected);
    let next = at + by;
    if (at < 0) {
      const after = sorted.findIndex((note) => note.onset >= editor.place.tick);
      next = by > 0 ? after : (after < 0 ? sorted.length : after) - 1;
    }
    if (!sorted[next]) return;
    editor.selectNote(sorted[next]);
    this.#show();
  }

  // Scrolls to the selected note.
  #show() {
    const {selected} = this.editor;
    if (selected) this.#scrolled(() => this.view.show(selected.onset, selected.end, selected.key));
  }

  #barline(by) {
    const {editor} = this, from = editor.barline ?? (by > 0 ? editor.bar : editor.bar + 1), bar = from + by;
    if (bar < 0 || bar > editor.piece.bars) return;
    editor.selectBarline(bar);
    this.#scrolled(() => this.view.show(editor.piece.starts[bar], editor.piece.starts[bar]));
  }

  #voice(by) {
    const {channels} = this.editor.piece, at = channels.indexOf(this.editor.channel) + by + channels.length;
    this.editor.selectVoice(channels[at % channels.length]);
  }

  #place(quarters) {
    const {editor} = this, tick = Math.min(Math.max(editor.place.tick + quarters * editor.piece.division, 0), editor.piece.end);
    editor.selectPlace(tick, editor.place.key);
    this.#scrolled(() => this.view.show(tick, tick, editor.place.key));
  }

  #ticks(steps) {
    return Math.trunc(steps * Math.max(this.editor.piece.division / STEP, 1));
  }

  async #nudge(steps) {
    const {editor} = this, {selected, barline} = editor, ticks = this.#ticks(steps);
    if (selected) {
      const onset = Math.max(selected.onset + ticks, 0);
      return this.#change(selected, {onset, end: onset + selected.end - selected.onset});
    }
    if (barline) {
      const tick = editor.piece.starts[barline];
      await editor.step([`barline ${barline} ${Math.max(tick + ticks, 0)}`], this.#point(tick));
    }
  }

  async #transpose(by) {
    const note = this.editor.selected;
    if (note && note.key + by >= 0 && note.key + by < 128) await this.#change(note, {key: note.key + by});
  }

  async #lengthen(steps) {
    const note = this.editor.selected;
    if (note) await this.#change(note, {end: Math.max(note.end + this.#ticks(steps), note.onset)});
  }

  // Gives a note another place, key or end.
  async #change(note, changes) {
    const to = {channel: note.channel, key: note.key, onset: note.onset, end: note.end, ...changes};
    if (await this.editor.step(linesOf(note, to), this.#point(note.onset, note.key))) this.#show();
  }

  async #add() {
    const {piece, place, channel} = this.editor, to = {channel, key: place.key, onset: place.tick, end: place.tick + piece.division};
    if (await this.editor.step(linesOf(null, to), this.#point(place.tick, place.key))) this.#show();
  }

  // The point of the roll at which a refusal is told.
  #point(tick, key = null) {
    return {x: this.view.x(tick), y: key === null ? 40 : this.view.y(key)};
  }
}
