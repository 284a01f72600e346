// The editor: the piece, what is selected in it, and the steps that the server is asked for, one after another.
//
// What shows the piece listens: `changed` comes when the piece is another one, `selected` when something else is selected, `told` when
// there is something to say, with a text, where it belongs (a point on the roll, or nothing), and whether it is a refusal.

import {Piece} from "./piece.js";
import {Refused, Wrong, ask, piece} from "./server.js";
import {stepInWords} from "./words.js";

export class Editor extends EventTarget {
  static async opened() {
    return new Editor(await piece());
  }

  constructor(told) {
    super();
    this.lilypond = told.lilypond;
    this.piece = new Piece(told);
    this.channel = this.piece.channels[0]; // the voice in which notes are added, and whose rhythms are shown
    this.bar = 0; // the bar whose rhythms are shown
    this.note = null; // the selected note, by its id
    this.barline = null; // or the selected barline, by its bar
    this.place = {tick: 0, key: this.piece.sorted[0]?.key ?? 60}; // where a note is added by a key
    this.waiting = Promise.resolve();
  }

  get selected() {
    return this.piece.notes.get(this.note) ?? null;
  }

  tell(text, at = null, refused = false) {
    this.dispatchEvent(new CustomEvent("told", {detail: {text, at, refused}}));
  }

  // Makes the lines of a step. Answers whether they were made.
  step(lines, at = null) {
    return this.#asked("edit", {lines}, at);
  }

  undo() {
    return this.#asked("undo");
  }

  redo() {
    return this.#asked("redo");
  }

  fit(bar) {
    return this.#asked("fit", {bar}, null, "The barline stands best where it is.");
  }

  follow() {
    this.tell("Looking for the barlines that the player had. You can go on meanwhile …");
    return this.#answered("follow", {}, null, "The barlines stay: they are right, or too little would be gained.");
  }

  async open(lines) {
    const opened = await this.#asked("open", {lines});
    if (opened) this.tell(`The script was opened: ${lines.length} lines.`);
    return opened;
  }

  selectNote(note) {
    this.#choose(note);
    this.#select();
  }

  selectBarline(bar) {
    Object.assign(this, {note: null, barline: bar});
    this.#select();
  }

  selectPlace(tick, key) {
    Object.assign(this, {note: null, barline: null, place: {tick, key}});
    this.#select();
  }

  selectVoice(channel) {
    this.channel = channel;
    this.#select();
  }

  #choose(note) {
    Object.assign(this, {note: note.id, barline: null, channel: note.channel, place: {tick: note.end, key: note.key}});
  }

  #select() {
    this.#settle();
    this.#notify("selected");
  }

  // Asks for a step when those before it are answered.
  #asked(name, request = {}, at = null, unchanged = "") {
    const answer = this.waiting.then(() => this.#answered(name, {version: this.piece.version, ...request}, at, unchanged));
    this.waiting = answer.catch(() => {});
    return answer;
  }

  // Takes what has changed, and says what came of it. Answers whether the step was made.
  async #answered(name, request, at, unchanged) {
    try {
      await this.#took(await ask(name, request), unchanged);
      return true;
    } catch (met) {
      await this.#failed(met, at);
      return false;
    }
  }

  async #took(told, unchanged) {
    if (told.same) {
      this.tell(unchanged);
      return;
    }
    if (told.built !== undefined && told.version === this.piece.version + 1) {
      const come = this.piece.take(told);
      if (come.length === 1) this.#choose(come[0]); // a note that was added or moved, or that has come back
    } else {
      this.piece = new Piece(await piece()); // it was opened anew, or another step came between
    }
    this.#settle();
    this.#notify("changed");
    this.tell(stepInWords(told));
  }

  async #failed(met, at) {
    if (!(met instanceof Refused || met instanceof Wrong)) throw met;
    this.tell(met.message, at, true);
    const told = met instanceof Wrong && await piece().catch(() => null);
    if (!told) return;
    this.piece = new Piece(told);
    this.#settle();
    this.#notify("changed");
  }

  // What is selected in the piece as it is now.
  #settle() {
    if (!this.selected) this.note = null;
    if (this.barline > this.piece.bars) this.barline = null;
    const bar = this.selected ? Math.floor(this.selected.begin) : this.barline ?? this.piece.barAt(this.place.tick);
    this.bar = Math.min(bar, this.piece.bars - 1);
  }

  #notify(name) {
    this.dispatchEvent(new Event(name));
  }
}
