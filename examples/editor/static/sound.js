// The performance or the score, played by the browser's own sound. Both have the ticks of the MIDI file as their places, and differ in when
// a tick is heard: in a performance by its tempos, in a score by bars that are as long as their signatures say.

import {firstWhere} from "./piece.js";

const AHEAD = 0.4; // seconds for which notes are given to the browser beforehand
const EACH = 100; // milliseconds between two looks ahead
const GRACE = 0.07; // seconds of a grace note, before its main note
const LOUD = 0.12;

// Ticks and seconds beside one another, as straight lines between points that both rise.
export class Times {
  constructor(ticks, seconds) {
    Object.assign(this, {ticks, seconds});
  }

  static ofPerformance({tempos, division, end}) {
    const changes = [[0, 500000], ...tempos, [Math.max(end, ...tempos.map(([tick]) => tick)) + 1, 0]], ticks = [0], seconds = [0];
    for (let at = 1; at < changes.length; at++) {
      ticks.push(changes[at][0]);
      seconds.push(seconds[at - 1] + (changes[at][0] - changes[at - 1][0]) * changes[at - 1][1] / division / 1e6);
    }
    return new Times(ticks, seconds);
  }

  static ofScore({tempos, starts, signatures}) {
    const seconds = [0];
    for (const [bar, signature] of signatures.entries()) {
      const [beats, value] = signature.split("/").map(Number), tempo = tempos.findLast(([tick]) => tick <= starts[bar])?.[1] ?? 500000;
      seconds.push(seconds[bar] + 4 * beats / value * tempo / 1e6);
    }
    return new Times(starts, seconds);
  }

  second(tick) {
    return between(this.ticks, this.seconds, tick);
  }

  tick(second) {
    return between(this.seconds, this.ticks, second);
  }
}

function between(from, to, value) {
  const at = Math.min(Math.max(firstWhere(from.length, (place) => from[place] > value) - 1, 0), from.length - 2);
  const width = from[at + 1] - from[at];
  return width === 0 ? to[at + 1] : to[at] + (value - from[at]) / width * (to[at + 1] - to[at]);
}

export class Sound {
  constructor(editor) {
    this.editor = editor;
    this.kind = null; // what is played
  }

  // Plays from a tick on, the performance or the score.
  play(kind, tick) {
    this.stop();
    this.context ??= new AudioContext();
    this.context.resume();
    const {piece} = this.editor;
    this.kind = kind;
    this.times = kind === "score" ? Times.ofScore(piece) : Times.ofPerformance(piece);
    this.notes = heard(piece, kind, this.times).filter((note) => note.end > this.times.second(tick));
    this.last = this.notes.reduce((last, note) => Math.max(last, note.end), 0);
    this.zero = this.context.currentTime + 0.1 - this.times.second(tick);
    this.sounding = new Set();
    this.next = 0;
    this.#look();
    this.timer = setInterval(() => this.#look(), EACH);
  }

  stop() {
    clearInterval(this.timer);
    this.sounding?.forEach((voice) => voice.stop());
    this.sounding = null;
    this.kind = null;
  }

  // The tick that is heard now, or null where nothing is played.
  get tick() {
    return this.kind ? this.times.tick(this.context.currentTime - this.zero) : null;
  }

  #look() {
    const now = this.context.currentTime - this.zero;
    for (; this.notes[this.next]?.begin < now + AHEAD; this.next++) this.#sound(this.notes[this.next], now);
    if (now > this.last + 0.3) this.stop();
  }

  #sound({key, begin, end}, now) {
    const {context} = this, voice = context.createOscillator(), level = context.createGain();
    const start = this.zero + Math.max(begin, now), stop = Math.max(this.zero + end, start + 0.04);
    voice.type = "triangle";
    voice.frequency.value = 440 * 2 ** ((key - 69) / 12);
    level.gain.setValueAtTime(0, start);
    level.gain.linearRampToValueAtTime(LOUD, start + 0.01);
    level.gain.setTargetAtTime(LOUD / 3, start + 0.02, 0.4);
    level.gain.setTargetAtTime(0, stop, 0.02);
    voice.connect(level).connect(context.destination);
    voice.start(start);
    voice.stop(stop + 0.15);
    this.sounding.add(voice);
    voice.onended = () => this.sounding?.delete(voice);
  }
}

// When each note is heard. Of a score a short note is half as long as it is written, and grace notes come right before their main note.
function heard(piece, kind, times) {
  const found = piece.sorted.map(({key, onset, end, from, to, kind: mark}) => {
    if (kind === "performance") return {key, begin: times.second(onset), end: times.second(end)};
    const begin = times.second(from), stop = times.second(to);
    if (mark === "grace") return {key, begin: begin - GRACE, end: begin};
    return {key, begin, end: mark === "short" ? (begin + stop) / 2 : stop};
  });
  return found.sort((one, other) => one.begin - other.begin);
}
