// The other rhythms of a bar of a voice: what each costs and how it is written, to be pinned by one click.

import {Dropped, Refused, Wrong, ask} from "./server.js";

export class Rhythms {
  constructor(editor, list, title) {
    Object.assign(this, {editor, list, title, shown: null});
    editor.addEventListener("selected", () => this.#follow());
    editor.addEventListener("changed", () => this.#follow(true));
    this.#follow();
  }

  // To the list by a key, once it is there.
  async focus() {
    await this.asked;
    this.list.querySelector("button")?.focus();
  }

  #follow(anew = false) {
    const {channel, bar} = this.editor, place = `${channel} ${bar}`;
    if (place === this.shown && !anew) return;
    if (place !== this.shown) this.list.replaceChildren();
    this.shown = place;
    this.title.textContent = `Rhythms of bar ${bar + 1}, voice ${channel}`;
    clearTimeout(this.timer);
    // after steps that follow one another at once the list is asked for once
    this.asked = new Promise((done) => {
      this.timer = setTimeout(() => this.#ask(channel, bar, place).then(done), 150);
    });
  }

  async #ask(channel, bar, place) {
    try {
      const found = await ask("alternatives", {channel, bar});
      if (this.shown === place) this.#show(found, channel, bar);
    } catch (met) {
      if (met instanceof Dropped) return; // a step was made, after which they are asked for again
      if (!(met instanceof Refused || met instanceof Wrong)) throw met;
      this.list.replaceChildren(met.message);
    }
  }

  #show(found, channel, bar) {
    const {editor} = this, pinned = editor.piece.shapes.get(this.shown), focused = this.list.contains(document.activeElement);
    const rows = found.map(({cost, shape, written}) => {
      return this.#row(cost, written, shape === pinned, () => editor.step([`pin ${channel} ${bar} ${shape}`]));
    });
    if (pinned !== undefined) rows.unshift(this.#button("Take the pin off", () => editor.step([`unpin ${channel} ${bar}`])));
    this.list.replaceChildren(...rows);
    if (focused) this.list.querySelector("button")?.focus();
  }

  #row(cost, written, isPinned, pin) {
    const button = this.#button("", pin), text = document.createElement("code"), price = document.createElement("span");
    text.textContent = written;
    price.textContent = `${isPinned ? "pinned, " : ""}the voice costs ${cost.toLocaleString("en")}`;
    button.append(text, price);
    button.setAttribute("aria-pressed", isPinned);
    return button;
  }

  #button(text, action) {
    const button = document.createElement("button");
    button.textContent = text;
    button.addEventListener("click", action);
    return button;
  }
}
