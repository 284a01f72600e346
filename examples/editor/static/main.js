// The page put together: the editor, what shows it, and the buttons.

import {Corrections} from "./corrections.js";
import {Editor} from "./editor.js";
import {Keys} from "./keys.js";
import {keep, open} from "./keep.js";
import {Rhythms} from "./rhythms.js";
import {Roll, colourOf} from "./roll.js";
import {Sound} from "./sound.js";
import {View} from "./view.js";
import {selectedInWords} from "./words.js";
import {Written} from "./written.js";

const $ = (name) => document.getElementById(name);
const editor = await Editor.opened();
const view = new View(editor.piece);
const roll = new Roll($("roll"), editor, view);
const written = new Written(editor, view, $("page"), $("form"));
const rhythms = new Rhythms(editor, $("rhythms"), $("rhythms-title"));
const sound = new Sound(editor);
const corrections = new Corrections(roll, editor, view);

// What buttons and keys do.
const commands = {
  undo: () => editor.undo(),
  redo: () => editor.redo(),
  drop: () => corrections.drop(),
  follow: () => editor.follow(),
  fit: () => editor.barline ? editor.fit(editor.barline) : editor.tell("Select a barline first: click on its mark above, or press b."),
  addbar: () => editor.step(["addbar"]),
  dropbar: () => editor.step(["dropbar"]),
  rhythms: () => rhythms.focus(),
  help: () => $("help").showModal(),
  play,
  scrolled,
};

// What is shown

editor.addEventListener("changed", () => {
  view.piece = editor.piece;
  roll.draw();
  performance.mark("drawn");
  showHeads();
});
editor.addEventListener("selected", () => {
  showSelected();
  roll.refresh();
});
editor.addEventListener("told", ({detail}) => tell(detail));

function showHeads() {
  const {piece} = editor, [made, undone] = piece.steps;
  document.title = `${piece.name}, a performance in rhythm`;
  $("name").textContent = `${piece.name} by ${piece.grammar}`;
  $("undo").disabled = made === 0;
  $("redo").disabled = undone === 0;
  $("cost").textContent = `${made} ${made === 1 ? "step" : "steps"}, cost ${piece.cost.toLocaleString("en")}`;
  $("place").max = Math.max(piece.bars - 1, 1);
  showSelected();
  scrolled();
}

function showSelected() {
  $("selected").textContent = selectedInWords(editor);
  $("voice").value = editor.channel;
}

function scrolled() {
  $("beside").hidden = true;
  roll.refresh();
  written.show();
  $("place").value = view.bars()[0];
  $("place").setAttribute("aria-valuetext", `bar ${view.bars()[0] + 1} of ${editor.piece.bars}`);
}

// What there is to say, at the foot, and where it is of a point of the roll beside it: in the upper half below it, and else above.
function tell({text, at, refused}) {
  $("said").textContent = text;
  $("said").className = refused ? "refused" : "";
  $("beside").hidden = !at;
  if (!at) return;
  const below = at.y < view.height / 2;
  $("beside").textContent = text;
  $("beside").style.left = `${Math.min(Math.max(at.x, 10), view.width - 260)}px`;
  $("beside").style.top = below ? `${at.y + 20}px` : "auto";
  $("beside").style.bottom = below ? "auto" : `${view.height - at.y + 20}px`;
}

// What is heard

function play(kind) {
  const {piece, selected, barline, place} = editor, before = sound.kind;
  sound.stop();
  if (before !== kind) sound.play(kind, selected?.onset ?? (barline === null ? place.tick : piece.starts[barline]));
  requestAnimationFrame(showCursor);
}

function showCursor() {
  roll.cursor = sound.tick;
  roll.refresh();
  for (const kind of ["performance", "score"]) $(`play-${kind}`).setAttribute("aria-pressed", sound.kind === kind);
  if (roll.cursor === null) return;
  if (roll.cursor > view.right || roll.cursor < view.left) {
    view.show(roll.cursor, roll.cursor + 0.8 * (view.right - view.left));
    scrolled();
  }
  requestAnimationFrame(showCursor);
}

// What the pointer and the buttons do

function wheel(event) {
  event.preventDefault();
  const along = (event.deltaX + event.deltaY) * (event.deltaMode === 0 ? 1 : 30), box = $("roll").getBoundingClientRect();
  if (event.ctrlKey && event.shiftKey) view.zoomKeys(2 ** (-along / 400), event.clientY - box.top);
  else if (event.ctrlKey) view.zoom(2 ** (-along / 300), event.clientX - box.left);
  else if (event.shiftKey) view.scroll(0, -along);
  else view.scroll(along);
  scrolled();
}

for (const channel of editor.piece.channels) {
  const choice = new Option(`voice ${channel}`, channel);
  choice.style.color = colourOf(editor.piece, channel);
  $("voice").append(choice);
}
for (const name of ["undo", "redo", "drop", "follow", "fit", "addbar", "dropbar"]) $(name).addEventListener("click", commands[name]);
for (const kind of ["performance", "score"]) $(`play-${kind}`).addEventListener("click", () => play(kind));
for (const button of document.querySelectorAll("[data-form]")) button.addEventListener("click", () => keep(editor, button.dataset.form));
$("help-button").addEventListener("click", commands.help);
$("open").addEventListener("change", async ({target}) => {
  if (target.files.length) await open(editor, target.files[0]);
  target.value = "";
});
$("voice").addEventListener("change", ({target}) => editor.selectVoice(Number(target.value)));
$("place").addEventListener("input", ({target}) => {
  view.begins(editor.piece.starts[Number(target.value)]);
  scrolled();
});
$("roll").addEventListener("wheel", wheel, {passive: false});
new Keys({editor, view, roll, commands});
showHeads();
$("roll").focus();
window.desk = {editor, view, roll, sound}; // for the console, and for tests
document.documentElement.dataset.ready = "true";
