"""Where the notes of a performance are written: the score's text by bars, and for each chord that was played its place in the score.

A place in a score is a number of bars: 3.25 is a quarter of the way through the bar numbered 3. So it stays as it is where a barline is
moved and the score does not change.
"""
import bisect
import itertools
import re
import typing

import rhythm
from performance import length

BARLINE = re.compile(r"\n=.*\n")


class Chord(typing.NamedTuple):
    """A chord of the score: where it begins and ends, its kind, `note`, `short` or `grace`, and whether it is tied, which is written in
    several values. A grace note is at the place of its main note, and has no length."""
    begin: float
    end: float
    kind: str
    tied: bool


def bars_of(text):
    """The data records of each bar of a score; what is said before a barline is left out."""
    bars = BARLINE.split(text)[1:-1]
    return ["\n".join(line for line in bar.split("\n") if line[0] != "*") if "*" in bar else bar for bar in bars]


def columns_of(bar):
    """The tokens of each column of a bar, without the dots of records in which nothing begins there."""
    return [[token for token in column if token != "."] for column in zip(*(line.split("\t") for line in bar.split("\n")))]


def begins_tied(bar):
    """Whether a note of the bar before goes on in this one."""
    return any(column[0][-1] in "_]" for column in columns_of(bar))


def ties_of(bar):
    """For each column of a bar, whether each chord or grace chord that begins there is written in several values."""
    return [[token[0] == "[" for token in column if token[-1] not in "r_]"] for column in columns_of(bar)]


def with_ties(bars, first, stop):
    """Some bars, from first to stop, with those besides from which or into which a note of theirs is tied."""
    while first > 0 and begins_tied(bars[first]):
        first -= 1
    while stop < len(bars) and begins_tied(bars[stop]):
        stop += 1
    return first, stop


def text_of(bars, signatures):
    """Some bars as a score of their own."""
    def all_columns(word):
        return "\t".join([word] * (bars[0].split("\n")[0].count("\t") + 1)) + "\n"

    pieces = [all_columns(f"*M{signature}") + all_columns("=") + bar + "\n" for bar, signature in zip(bars, signatures)]
    return all_columns("**kern") + "".join(pieces) + all_columns("==") + all_columns("*-")


def chords_of(bars, signatures, first):
    """The chords that begin in some bars, into which and from which no note is tied: for each bar and column a list. `first` is the number
    of the first of these bars."""
    lines = [0.0, *itertools.accumulate(float(length(signature)) for signature in signatures)]
    found = [[[] for _ in column] for bar in bars for column in [columns_of(bar)]]
    ties = [ties_of(bar) for bar in bars]

    def place(wholes):
        bar = min(bisect.bisect_right(lines, wholes) - 1, len(bars) - 1)
        return round(first + bar + (wholes - lines[bar]) / (lines[bar + 1] - lines[bar]), 6)

    for event in rhythm.events(text_of(bars, signatures)):
        begin, end = place(float(event.onset)), place(float(event.onset) + float(event.length))
        bar, at = int(begin) - first, event.column - 1
        column = found[bar][at]
        column.extend(Chord(begin, begin, "grace", False) for _ in event.graces)
        column.append(Chord(begin, end, "short" if event.short else "note", ties[bar][at][len(column)]))
    return found


class Score:
    """The text of a score by bars, `texts`, and for each bar and column the chords that begin there, `chords`."""

    def __init__(self):
        self.texts, self.chords = [], []

    def take(self, text, signatures, first, last):
        """Takes another text of the score. The bars from `first` to `last` are read again, and so are those whose text is another one.
        Gives the first of the bars that were read, and the one after the last of them."""
        before, self.texts = self.texts, bars_of(text)
        first, stop = self._read_again(before, first, last + 1)
        after = stop if len(before) == len(self.texts) else None  # all of them, where bars were added or dropped at the end
        self.chords[first:after] = chords_of(self.texts[first:stop], signatures[first:stop], first)
        return first, stop

    def before(self, bar, column):
        """How many chords of a column begin before a bar."""
        return sum(len(bars[column]) for bars in self.chords[:bar])

    def _read_again(self, before, first, stop):
        count = len(self.texts)
        others = [bar for bar, (old, new) in enumerate(zip(before, self.texts)) if old != new]
        if len(before) != count:
            others += [min(len(before), count - 1), count - 1]
        return with_ties(self.texts, min([first, *others]), min(max([stop, *(bar + 1 for bar in others)]), count))


def alike(text, signatures, bar):
    """The tokens of each column of a bar of a score, and what sounds there: two scores in which the latter is the same are written with the
    same notes and lengths there, however these are tied."""
    bars = bars_of(text)
    first, stop = with_ties(bars, bar, bar + 1)
    chords = chords_of(bars[first:stop], signatures[first:stop], first)
    return columns_of(bars[bar]), [[[it[:3] for it in column] for column in bar] for bar in chords]
