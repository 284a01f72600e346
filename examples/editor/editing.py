"""The piece that is edited: one session of `rhythm studio`, the steps that were made in it, and what a step has changed."""
import contextlib
import os
import threading

import rhythm
from forms import forms
from performance import Clock, Performance, chords, touched
from written import Score, alike, columns_of

FIT_REACH, FIT_STEP = 2, 48  # a barline is tried up to half a quarter before and after, in steps of a 48th of a quarter
ALTERNATIVES = 16


class Stale(Exception):
    """The step was meant for the piece as it was before another step."""


def window_of(grammar):
    """The microseconds within which notes are a chord, as the grammar file says. What is no grammar is left to the program to refuse."""
    with open(grammar, encoding="utf-8", errors="replace") as lines:
        found = (words[1] for words in map(str.split, lines) if words[:1] == ["window"] and len(words) == 2)
        return int(next((word for word in found if word.isdecimal()), "0"))


class Editor:
    """A piece in an editor. Its calls may come from several threads: one is answered after another.

    A step is what the user does at once, one line of an edit script or several: all of them are made, or none. The two files and the lines
    of all steps are the piece, and any state of it can be opened again from them. `version` counts the steps that were made and taken back.
    """

    def __init__(self, midi, grammar, lines=(), workers=1, options=()):
        self.midi, self.grammar, self.options, self._workers = midi, grammar, options, workers
        self._lock = threading.Lock()
        self._found = rhythm.notes(midi, options)
        self._session = None
        self._clock = Clock(self._found.tempos)
        self._window = window_of(grammar) * Performance(self._found).division
        self.version = 0
        self._open([[line] for line in lines])

    def close(self):
        self._session.close()

    # what the page asks for

    def piece(self):
        """All that the page shows of the piece."""
        with self._alone():
            notes = [[*note, *place] for note, place in self._places.items()]
            return {**self._heads(), **self._bars(), "first": 0, "texts": self._score.texts, "gone": [], "notes": notes}

    def edit(self, version, lines):
        """Makes the lines of a step, and tells what is changed."""
        with self._alone(version):
            return self._step(lines)

    def undo(self, version):
        """Takes the last step back."""
        with self._alone(version):
            if not self._steps:
                raise rhythm.Refused("NoStep")
            *self._steps, step = self._steps
            self._take_back(len(step))
            try:
                text = self._session.score()
            except rhythm.Refused:  # there was no memory for it
                self._open([*self._steps, step])
                raise
            self._undone.append(step)
            self._performance = self._performed()
            return self._changed(step, text)

    def redo(self, version):
        """Makes the step again that was taken back last."""
        with self._alone(version):
            if not self._undone:
                raise rhythm.Refused("NoStep")
            return self._step(self._undone[-1], self._undone[:-1])

    def fit(self, version, bar):
        """Moves a barline to where the piece costs least, the earliest such place; None where that is where it stands."""
        with self._alone(version):
            if not 0 < bar < len(self._performance.starts):
                raise rhythm.Refused("NoBar", bar)
            quarter, now = self._performance.division, self._performance.starts[bar]
            ticks = range(max(now - quarter // FIT_REACH, 0), now + quarter // FIT_REACH + 1, max(quarter // FIT_STEP, 1))
            costs = [(self._tried(f"barline {bar} {tick}"), tick) for tick in ticks]
            cost, best = min(((cost, tick) for cost, tick in costs if cost is not None), default=(self._cost, now))
            return self._step([f"barline {bar} {best}"]) if cost < self._cost else None

    def form(self, form, lines):
        """A form of the score after these lines."""
        return forms(form, self.midi, self.grammar, lines, self.options)

    def follow(self):
        """Moves the barlines to where the player has them; None where too little is gained by that."""
        found = self.form("follow", self.script()).decode().splitlines()
        with self._alone():
            return self._step(found) if found else None

    def alternatives(self, channel, bar):
        """The rhythms that a bar of a voice can have, of those that sound alike the first: its cost, its shape, and how the bar is written.
        A step need not wait until all are tried: it makes this call `Stale`."""
        with self._alone():
            version, others = self.version, self._session.alternatives(channel, bar, ALTERNATIVES)
            column, signatures = sorted(self._performance.voices).index(channel), list(self._performance.signatures)
        found, known = [], []
        for other in others:
            with self._alone(version):
                text = self._pinned(channel, bar, other.shape)
            tokens, sounds = alike(text, signatures, bar)
            if sounds not in known:
                known.append(sounds)
                found.append({"cost": other.cost, "shape": other.shape, "written": " ".join(tokens[column])})
        return found

    def open(self, version, lines):
        """Opens the two files anew, with the lines of a saved script."""
        with self._alone(version):
            before = self._steps
            try:
                self._open([[line] for line in lines])
            except (rhythm.Refused, ValueError):
                self._open(before)
                raise

    def script(self):
        """The lines of all steps."""
        with self._alone():
            return self._lines()

    def score(self):
        """The score's text."""
        with self._alone():
            return self._session.score()

    # how it is done

    @contextlib.contextmanager
    def _alone(self, version=None):
        """One call at a time, on the piece as it was at this version. Where the program ends, it is opened again with all steps."""
        with self._lock:
            if version not in (None, self.version):
                raise Stale
            try:
                yield
            except rhythm.Ended:
                self._open(self._steps)
                raise

    def _lines(self):
        return [line for step in self._steps for line in step]

    def _open(self, steps):
        """Opens the files with these steps, and reads everything."""
        self._steps, self._undone, self._score, self._places, self._chords = steps, [], Score(), {}, {}
        self._reopen()
        self._performance = self._performed()
        self._changed([], self._session.score())

    def _reopen(self):
        """A new session, brought to where the steps lead. The first line changes nothing, and tells the cost."""
        if self._session:
            self._session.close()
        self._session = rhythm.Session(self.midi, self.grammar, self._workers, self.options)
        self._session.unpin(self._found.channels()[0], 0)
        self._take_back(1)
        for line in self._lines():
            self._cost = self._session.edit(line).cost

    def _performed(self):
        performance = Performance(self._found)
        for line in self._lines():
            performance.make(line)
        return performance

    def _step(self, lines, undone=()):
        """Makes all lines or none; these steps are left to be made again."""
        edited = []
        try:
            for line in lines:
                edited.append(self._session.edit(line))
            text = self._session.score()
        except (rhythm.Refused, ValueError):
            self._take_back(len(edited))
            raise
        self._cost = edited[-1].cost
        self._steps.append(list(lines))
        self._undone = list(undone)
        for line in lines:
            self._performance.make(line)
        return self._changed(lines, text, sum(it.built for it in edited))

    def _take_back(self, count):
        """Takes the last lines of the session back. It keeps 64 at most: where more are asked for, the files are opened anew."""
        try:
            for _ in range(count):
                self._cost = self._session.undo().cost
        except rhythm.Refused:
            self._reopen()

    def _tried(self, line):
        """What the piece would cost with the edit of a line, or None where it is refused."""
        try:
            cost = self._session.edit(line).cost
        except rhythm.Refused:
            return None
        self._session.undo()
        return cost

    def _pinned(self, channel, bar, shape):
        """The score with a pin of this shape."""
        self._session.pin(channel, bar, shape)
        try:
            return self._session.score()
        finally:
            self._session.undo()

    def _changed(self, lines, text, built=0):
        """Reads the score after the lines of a step, made or taken back, and tells what the page has to show anew."""
        performance = self._performance
        spans = [touched(line, performance) for line in lines] or [(0, len(performance.signatures) - 1)]
        first, last = min(first for first, _ in spans), max(last for _, last in spans)
        first, stop = self._score.take(text, performance.signatures, first, last)
        self.version += 1
        for line in lines:
            self._forget(line)
        gone = [note for line in lines for note in self._gone(line)]
        texts = self._score.texts[first:stop]
        bars = {} if all(line.split(" ")[0] in ("add", "drop", "move", "pin", "unpin") for line in lines) else self._bars()
        return {**self._heads(), **bars, "built": built, "first": first, "texts": texts, "gone": gone, "notes": self._placed(first, stop)}

    def _forget(self, line):
        """The chords of a voice are found again where a line speaks of its notes."""
        kind, *words = line.split(" ")
        if kind in ("add", "drop", "move"):
            self._chords.pop(int(words[0]), None)

    def _chords_of(self, channel):
        if channel not in self._chords:
            self._chords[channel] = chords(self._performance.voices[channel], self._clock, self._window)
        return self._chords[channel]

    def _gone(self, line):
        """The notes of which a line speaks that are not there now."""
        kind, *words = line.split(" ")
        if kind in ("add", "drop", "move"):
            channel, key, *ticks = map(int, words)
            for note in ((channel, key, tick) for tick in ticks):
                if self._performance.end_of(*note) is None and self._places.pop(note, None):
                    yield note

    def _placed(self, first, stop):
        """The notes that are written in some bars, from first to stop, where their place is another one than before: channel, key, onset
        and end, and begin, end, kind and tie of the chord in the score."""
        placed = []
        for column, channel in enumerate(sorted(self._performance.voices)):
            begin = self._score.before(first, column)
            written = [chord for bar in self._score.chords[first:stop] for chord in bar[column]]
            played = self._chords_of(channel)[begin : begin + len(written)]
            for chord, notes in zip(written, played):
                for onset, key, end in notes:
                    note, place = (channel, key, onset), (end, *chord)
                    if self._places.get(note) != place:
                        self._places[note] = place
                        placed.append([*note, *place])
        return placed

    def _heads(self):
        """What is not of one bar or note."""
        performance = self._performance
        return {
            "name": os.path.basename(self.midi), "grammar": os.path.basename(self.grammar), "version": self.version, "cost": self._cost,
            "steps": [len(self._steps), len(self._undone)], "division": performance.division, "channels": sorted(performance.voices),
            "tempos": performance.tempos, "pins": [[*place, shape] for place, shape in performance.pins.items()],
        }

    def _bars(self):
        """The ticks of all barlines, and the signatures of all bars."""
        return {"starts": list(self._performance.starts), "signatures": list(self._performance.signatures)}
