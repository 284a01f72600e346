"""A performance as it is edited: its bars, notes and pins, and what each line of an edit script makes of them.

The program `rhythm` decides whether an edit is made. What it has accepted is made here too, so that an editor knows where notes and
barlines stand now.
"""
import bisect
import fractions


def length(signature):
    """How many whole notes a bar of this signature has."""
    return fractions.Fraction(signature)


class Performance:
    """What `rhythm notes` tells of a MIDI file (`found`), with the edits that were made since.

    `starts` are the ticks of all barlines, the last one too; `voices` has for each channel its notes as onset, key and end, by onset and
    key; `pins` has the shape of each pinned bar by channel and bar.
    """

    def __init__(self, found):
        self.starts = [bar.start for bar in found.bars] + [found.end]
        self.signatures = [bar.signature for bar in found.bars]
        self.tempos, self.keys = found.tempos, found.keys
        self.voices = {channel: [] for channel in found.channels()}
        self.pins = {}
        for note in found.notes:
            self.voices[note.channel].append((note.onset, note.key, note.end))
        # a quarter note follows from the first bar, which the file has laid as long as its signature says
        self.division = int((self.starts[1] - self.starts[0]) / (4 * length(self.signatures[0])))

    def make(self, line):
        """Makes the edit of a line that `rhythm` has accepted."""
        kind, *words = line.split(" ")
        if kind == "pin":
            self.pins[int(words[0]), int(words[1])] = " ".join(words[2:])
        else:
            getattr(self, "_" + kind)(*map(int, words))

    def end_of(self, channel, key, onset):
        """Where a note ends, or None where there is no such note."""
        voice = self.voices.get(channel, [])
        at = bisect.bisect_left(voice, (onset, key))
        return voice[at][2] if at < len(voice) and voice[at][:2] == (onset, key) else None

    def bar_at(self, tick):
        """The bar in which a tick lies; what is past the last barline counts as in the last bar."""
        return min(max(bisect.bisect_right(self.starts, tick) - 1, 0), len(self.signatures) - 1)

    def _add(self, channel, key, onset, end):
        bisect.insort(self.voices[channel], (onset, key, end))

    def _drop(self, channel, key, onset):
        self.voices[channel].remove((onset, key, self.end_of(channel, key, onset)))

    def _move(self, channel, key, onset, to):
        end = self.end_of(channel, key, onset)
        self._drop(channel, key, onset)
        self._add(channel, key, to, to + end - onset)

    def _barline(self, bar, tick):
        self.starts[bar] = tick

    def _unpin(self, channel, bar):
        self.pins.pop((channel, bar), None)

    def _addbar(self):
        self.signatures.append(self.signatures[-1])
        self.starts.append(self.starts[-1] + int(4 * self.division * length(self.signatures[-1])))

    def _dropbar(self):
        self.signatures.pop()
        self.starts.pop()
        self.pins = {place: shape for place, shape in self.pins.items() if place[1] < len(self.signatures)}


def touched(line, performance):
    """The bars that the line of an edit speaks of: first and last."""
    kind, *words = line.split(" ")
    last = len(performance.signatures) - 1
    if kind in ("add", "drop", "move"):
        bars = [performance.bar_at(int(tick)) for tick in words[2:3] + words[3:4] * (kind == "move")]
        return max(min(bars) - 1, 0), min(max(bars) + 1, last)
    if kind == "barline":
        return max(int(words[0]) - 1, 0), min(int(words[0]), last)
    bar = int(words[1]) if kind in ("pin", "unpin") else last
    return min(bar, last), min(bar, last)


class Clock:
    """When a tick is played, in microseconds times the division: the sum of the tempo over all ticks before it."""

    def __init__(self, tempos):
        self._ticks, self._tempos, self._times = [0], [500000], [0]
        for tick, tempo in tempos:
            self._times.append(self.at(tick))
            self._ticks.append(tick)
            self._tempos.append(tempo)

    def at(self, tick):
        piece = bisect.bisect_right(self._ticks, tick) - 1
        return self._times[piece] + (tick - self._ticks[piece]) * self._tempos[piece]

    def ticks(self, time):
        """At most so many ticks take this time, wherever they are."""
        return time // min(self._tempos)


def chords(voice, clock, window):
    """The chords of a voice in their order, lists of its notes: a note joins the chord before it where it begins within the window, in the
    unit of the clock, after the first note of that chord."""
    found, widest = [], clock.ticks(window)
    first = None
    for note in voice:
        onset = note[0]
        if first is not None and onset - first <= widest and clock.at(onset) - clock.at(first) <= window:
            found[-1].append(note)
        else:
            found.append([note])
            first = onset
    return found
