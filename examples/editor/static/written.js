// What is written: the bars that are seen on the roll, as a page that LilyPond has engraved, or as **kern text with a column for each bar.

import {Dropped, Wrong, page} from "./server.js";

const CALM = 250; // milliseconds without a change before a page is asked for
const SCROLLED = 60; // milliseconds without scrolling before **kern is shown
const MOST = 12; // bars of a page
const MILLIMETRES = 0.19; // of a page for each pixel of its width: so large is the music

export class Written {
  constructor(editor, view, box, choice) {
    Object.assign(this, {editor, view, box, choice, shown: ""});
    this.image = document.createElement("img");
    this.columns = document.createElement("div");
    this.columns.className = "columns";
    choice.value = editor.lilypond ? "page" : "kern";
    choice.disabled = !editor.lilypond;
    choice.addEventListener("change", () => this.show());
    editor.addEventListener("changed", () => this.show());
    new ResizeObserver(() => this.show()).observe(box);
  }

  // Shows the bars that are seen, where they or the score are other ones than before.
  show() {
    const [first, last] = this.#bars(), {version} = this.editor.piece, wait = version === this.version ? SCROLLED : 0;
    const place = `${version} ${first} ${last} ${this.box.clientWidth} ${this.choice.value}`;
    if (place === this.shown) return;
    Object.assign(this, {shown: place, version});
    clearTimeout(this.timer);
    if (this.choice.value === "kern") this.timer = setTimeout(() => this.#kern(first, last), wait);
    else this.#wait(first, last);
  }

  // The bars that are seen, the first one where at least half of it is, and no more than are a page.
  #bars() {
    const {view} = this, {starts} = this.editor.piece, [first, last] = view.bars();
    const begin = first < last && view.left > (starts[first] + starts[first + 1]) / 2 ? first + 1 : first;
    return [begin, Math.min(last, begin + MOST - 1)];
  }

  #wait(first, last) {
    this.timer = setTimeout(() => {
      if (!this.box.contains(this.image)) this.#kern(first, last, "The page is being engraved …");
      this.box.setAttribute("aria-busy", "true");
      this.#engrave(first, last);
    }, CALM);
  }

  async #engrave(first, last) {
    const version = this.editor.piece.version;
    try {
      const drawn = await page(first, last, Math.round(this.box.clientWidth * MILLIMETRES));
      this.#engraved(drawn, first, last, version);
    } catch (met) {
      if (met instanceof Dropped) return; // a newer one was asked for
      if (!(met instanceof Wrong)) throw met;
      this.#kern(first, last, met.message);
    }
  }

  #engraved(drawn, first, last, version) {
    const address = URL.createObjectURL(drawn);
    this.image.onload = () => URL.revokeObjectURL(address);
    this.image.src = address;
    this.image.alt = `Bars ${first + 1} to ${last + 1}, engraved. As text: ${this.editor.piece.texts.slice(first, last + 1).join(" | ")}`;
    this.image.dataset.version = version;
    this.box.replaceChildren(this.image);
    this.box.removeAttribute("aria-busy");
  }

  #kern(first, last, why = "") {
    const {piece} = this.editor;
    this.columns.replaceChildren(...piece.texts.slice(first, last + 1).map((text, at) => this.#bar(first + at, text)));
    this.columns.dataset.version = piece.version;
    const said = document.createElement("p");
    said.textContent = why;
    this.box.replaceChildren(...(why ? [said] : []), this.columns);
    this.box.removeAttribute("aria-busy");
  }

  // A bar: a column of the table for each voice.
  #bar(bar, text) {
    const table = document.createElement("table"), caption = document.createElement("caption");
    caption.textContent = `bar ${bar + 1}`;
    const rows = [this.editor.piece.channels.map((channel) => `voice ${channel}`), ...text.split("\n").map((line) => line.split("\t"))];
    table.append(caption, ...rows.map((cells, at) => this.#row(cells, at === 0 ? "th" : "td")));
    return table;
  }

  #row(cells, kind) {
    const row = document.createElement("tr");
    row.append(...cells.map((text) => Object.assign(document.createElement(kind), {textContent: text})));
    return row;
  }
}
