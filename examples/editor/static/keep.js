// What is kept: the piece in each of its forms as a file, and a script that was saved, opened again.

import {Wrong, form} from "./server.js";

const ENDINGS = {script: ".script", kern: ".krn", page: ".ly", render: ".mid", musicxml: ".musicxml"};

export async function keep(editor, name) {
  try {
    save(await form(name), editor.piece.name.replace(/\.[^.]*$/, "") + ENDINGS[name]);
  } catch (met) {
    if (!(met instanceof Wrong)) throw met;
    editor.tell(met.message, null, true);
  }
}

function save(content, name) {
  const link = document.createElement("a"), address = URL.createObjectURL(content);
  Object.assign(link, {href: address, download: name});
  link.click();
  setTimeout(() => URL.revokeObjectURL(address), 10000);
}

export async function open(editor, file) {
  const lines = (await file.text()).split(/\r?\n/).filter((line) => line);
  return editor.open(lines);
}
