// What is selected, in words: what the roll shows by places, frames and arrows is told here.

import {keyName} from "./piece.js";

const KINDS = {note: "a note", short: "a short note", grace: "a grace note"};

export function selectedInWords(editor) {
  if (editor.selected) return noteInWords(editor.piece, editor.selected);
  return editor.barline !== null ? barlineInWords(editor.piece, editor.barline) : placeInWords(editor);
}

function noteInWords(piece, note) {
  const late = (note.onset - note.from) / piece.division;
  const apart = Math.abs(late) < 0.005 ? "right there" : `${Math.abs(late).toFixed(2)} of a quarter ${late > 0 ? "late" : "early"}`;
  const until = note.kind === "grace" ? "" : ` to ${placeName(piece, note.finish)}`, where = placeName(piece, note.begin) + until;
  return `${keyName(note.key)}, voice ${note.channel}: ${KINDS[note.kind]} at ${where}${note.tied ? ", tied" : ""}. `
    + `Played ${apart}, at ticks ${note.onset} to ${note.end}.`;
}

function barlineInWords(piece, bar) {
  const name = bar === piece.bars ? "The last barline" : `The barline of bar ${bar + 1}`;
  return `${name}, at tick ${piece.starts[bar]}${bar === 0 ? "; it does not move" : ""}.`;
}

function placeInWords({piece, place, channel}) {
  const where = placeName(piece, piece.placeAt(place.tick));
  return `A note added here is ${keyName(place.key)} at ${where}, tick ${place.tick}, in voice ${channel}.`;
}

// A place in the score as musicians count: bar 1, beat 1.
function placeName(piece, place) {
  const bar = Math.min(Math.floor(place + 1e-6), piece.bars);
  if (bar === piece.bars) return "the end";
  const beat = (place - bar) * piece.beatsOf(bar) + 1;
  return `bar ${bar + 1} beat ${Number(beat.toFixed(2))}`;
}

// What came of a step.
export function stepInWords({built, cost}) {
  const bars = built === 1 ? "1 bar of a voice was" : `${built ?? 0} bars of voices were`;
  return `${bars} worked out anew; the piece now costs ${cost.toLocaleString("en")}.`;
}
