"""Performances turned into notation by the program `rhythm`: sessions of edits, scores, and what a MIDI file or a score has.

    with rhythm.Session("examples/four-quarters.mid", "examples/halves.rhy") as session:
        session.add(channel=0, key=64, onset=10, end=480)
        print(session.score())

Names of files are paths, of MIDI files and of grammar files. Ticks are those of the MIDI file, 0 to 2,000,000,000; channels are 0 to 15,
keys 0 to 127, where 60 is middle C; bars are numbered from 0, up to 4,096. Scores are texts in Humdrum **kern.

Two things can go wrong: an edit is refused (`Refused`, and nothing is changed), or the program ends (`Ended`, with its status and the line
that says why). The program is found on the path as `rhythm`, or where PROGRAM says.
"""
import collections
import fractions
import os
import subprocess
import tempfile
import typing

PROGRAM = "rhythm"
EDITS = ("add", "drop", "move", "barline", "pin", "unpin", "addbar", "dropbar")


class Refused(Exception):
    """A line that the session refuses; the performance is as it was, and the session goes on.

    `name` is the program's word, as NoNote or BarlineOrder; `about` are the words after it, numbers as such: for `NoDerivation 0 3` the
    channel 0 and the bar 3, for `PastEnd 3840` the tick of the last barline. The words are told in docs/EDITING.md.
    """

    def __init__(self, name, *about):
        super().__init__(" ".join(map(str, [name, *about])))
        self.name = name
        self.about = about


class Ended(Exception):
    """The program has ended, and not since it was asked to. `status` is its exit status, below 0 where a signal ended it, and `line` what it
    said on standard error: for `grammar 6 Number 1000000` the status is 2."""

    def __init__(self, status, line):
        super().__init__(line or f"rhythm ended with status {status}")
        self.status = status
        self.line = line


class Edited(typing.NamedTuple):
    """An edit that was made: how many bars of voices were worked out anew, and what all voices together cost now."""
    built: int
    cost: int


class Alternative(typing.NamedTuple):
    """A rhythm that a bar can have: what the voice costs with it, its shape as `pin` takes it, and its rules from the root down and from left
    to right, numbered from 0 in the order of the grammar file."""
    cost: int
    shape: str
    rules: typing.Tuple[int, ...]


class Bar(typing.NamedTuple):
    """A bar: its number, the tick at which it begins, and its signature, as 6/8."""
    number: int
    start: int
    signature: str


class Tempo(typing.NamedTuple):
    """From this tick on a quarter note lasts so many microseconds."""
    tick: int
    microseconds: int


class Key(typing.NamedTuple):
    """From this tick on the key signature has so many sharps, or flats where it is below 0."""
    tick: int
    sharps: int


class Note(typing.NamedTuple):
    """A note: its channel, its key, and the ticks at which it begins and ends."""
    channel: int
    key: int
    onset: int
    end: int


class Performance(typing.NamedTuple):
    """What a MIDI file has: bars, tempos and keys in their order, notes by onset, channel and key, and the tick of the last barline."""
    bars: typing.List[Bar]
    tempos: typing.List[Tempo]
    keys: typing.List[Key]
    notes: typing.List[Note]
    end: int

    def channels(self):
        """The channels that have a note, and so a voice: the columns of the score from left to right."""
        return sorted({note.channel for note in self.notes})


class Event(typing.NamedTuple):
    """A note or chord of a score: its column, from 1 on from left to right; its onset and its length in whole notes; whether it is short;
    its keys, and the grace notes before it, a tuple of keys each."""
    column: int
    onset: fractions.Fraction
    length: fractions.Fraction
    short: bool
    keys: typing.Tuple[int, ...]
    graces: typing.Tuple[typing.Tuple[int, ...], ...]


def _command(workers, *words):
    return [PROGRAM, "--workers", str(workers), *map(os.fspath, words)]


def _run(workers, *words, read=""):
    """What a command writes on standard output, with this on standard input."""
    ran = subprocess.run(_command(workers, *words), input=read.encode(), capture_output=True)
    if ran.returncode:
        raise Ended(ran.returncode, ran.stderr.decode(errors="replace").split("\n")[0])
    return ran.stdout.decode()


def transcribe(midi, grammar, workers=1, options=()):
    """The score of a MIDI file by a grammar, with so many threads, 1 to 16; it is the same for every number of them. Options are words as
    the program takes them, as in `["--hands", "0", "--meter", "3/4"]`."""
    return _run(workers, "transcribe", midi, grammar, *options)


def follow(midi, grammar, workers=1, options=()):
    """The lines of the edit script that moves the barlines to where the player has them; none where too little is gained by that."""
    return _run(workers, "follow", midi, grammar, *options).splitlines()


def notes(midi, options=()):
    """The bars, tempos, keys and notes of a MIDI file, as options make them."""
    bars, tempos, keys, found, end = [], [], [], [], 0
    for kind, *words in map(str.split, _run(1, "notes", midi, *options).splitlines()):
        if kind == "bar":
            bars.append(Bar(int(words[0]), int(words[1]), words[2]))
        elif kind == "tempo":
            tempos.append(Tempo(*map(int, words)))
        elif kind == "key":
            keys.append(Key(*map(int, words)))
        elif kind == "note":
            found.append(Note(*map(int, words)))
        else:
            end = int(words[0])
    return Performance(bars, tempos, keys, found, end)


def _keys(word):
    return tuple(map(int, word.split(",")))


def _event(line):
    column, onset, length, kind, keys, *graces = line.split(" ")
    times = map(fractions.Fraction, (onset, length))
    return Event(int(column), *times, kind == "short", _keys(keys), tuple(_keys(grace[1:]) for grace in graces))


def events(score):
    """The notes and chords of a score, a column after another. Two scores with the same events have the same notes and lengths, however they
    are tied."""
    return [_event(line) for line in _run(1, "events", "/dev/stdin", read=score).splitlines()]


class Session:
    """An editing session: a performance that is corrected, with its score at each time, over `rhythm studio`.

    It is opened on a MIDI file and a grammar, and a context manager; `close` ends it. Each edit answers `Edited`, or raises `Refused` and
    changes nothing. It is for one thread at a time.
    """

    def __init__(self, midi, grammar, workers=1, options=()):
        words = _command(workers, "studio", midi, grammar, *options)
        self._said = tempfile.TemporaryFile()
        self._program = subprocess.Popen(words, stdin=subprocess.PIPE, stdout=subprocess.PIPE, stderr=self._said)
        self._made = []
        self._undone = collections.deque()
        try:
            self._read_opening()
        except BaseException:
            self.close()
            raise

    def __enter__(self):
        return self

    def __exit__(self, *_):
        self.close()

    def close(self):
        """Ends the session; what was edited is gone but for what `script` said. It may be called twice."""
        for pipe in (self._program.stdin, self._program.stdout):
            try:
                pipe.close()
            except BrokenPipeError:
                pass
        self._program.wait()
        self._said.close()

    def add(self, channel, key, onset, end):
        """Adds a note."""
        return self._edit("add", channel, key, onset, end)

    def drop(self, channel, key, onset):
        """Takes a note out."""
        return self._edit("drop", channel, key, onset)

    def move(self, channel, key, onset, to):
        """Gives a note another onset, and keeps its length."""
        return self._edit("move", channel, key, onset, to)

    def barline(self, bar, tick):
        """Moves the start of a bar, or the last barline where `bar` is the number of bars."""
        return self._edit("barline", bar, tick)

    def pin(self, channel, bar, shape):
        """Pins the rhythm of a bar of a voice to trees of this shape, in place of an older pin: `.` is a leaf, `2(. 3(. . .))` two halves, the
        second of them in three."""
        return self._edit("pin", channel, bar, shape)

    def unpin(self, channel, bar):
        """Takes the pin off a bar of a voice."""
        return self._edit("unpin", channel, bar)

    def add_bar(self):
        """Adds a bar at the end, with the signature of the last one and as long as it says."""
        return self._edit("addbar")

    def drop_bar(self):
        """Drops the last bar, which must have no note."""
        return self._edit("dropbar")

    def edit(self, line):
        """Makes the edit of a line of an edit script, as `follow` and `script` have them."""
        if line.split(" ")[0] not in EDITS:
            raise ValueError(f"no edit: {line!r}")
        edited = self._edited(self._answer(line))
        self._made.append(line)
        self._undone.clear()
        return edited

    def undo(self):
        """Takes the last edit back. 64 steps are kept, or fewer on very large pieces."""
        edited = self._edited(self._answer("undo"))
        self._undone.append(self._made.pop())
        return edited

    def redo(self):
        """Makes the edit again that was taken back last; an edit that is made leaves none to be made again."""
        edited = self._edited(self._answer("redo"))
        self._made.append(self._undone.pop())
        return edited

    def alternatives(self, channel, bar, count=16):
        """The best rhythms that a bar of a voice can have, the best one first: `count` of them, 1 to 16, or fewer where there are no more."""
        reply = self._answer(f"alt {channel} {bar} {count}")
        return [self._alternative() for _ in range(int(reply[1]))]

    def score(self):
        """The score of the performance as it is now."""
        length = int(self._answer("score")[1])
        text = self._program.stdout.read(length)
        if len(text) < length:
            raise self._end()
        return text.decode()

    def script(self):
        """The lines of the edits that were made and not taken back. With the same two files they are the session: `edit` each in a new one."""
        return list(self._made)

    def _edit(self, *words):
        return self.edit(" ".join(map(str, words)))

    def _read_opening(self):
        """A line that is no edit, whose reply says that the files were read and every voice has a derivation."""
        self._write("undo")
        self._line()

    def _alternative(self):
        _alt, cost, rest = self._line().split(" ", 2)
        shape, rules = rest.rsplit(" ", 1)
        return Alternative(int(cost), shape, _keys(rules))

    @staticmethod
    def _edited(reply):
        return Edited(int(reply[1]), int(reply[2]))

    def _answer(self, line):
        """The words of the first line of a reply."""
        if "\n" in line:
            raise ValueError(f"no single line: {line!r}")
        self._write(line)
        reply = self._line().split(" ")
        if reply[0] == "refused":
            raise Refused(reply[1], *(int(word) if word.isdigit() else word for word in reply[2:]))
        return reply

    def _write(self, line):
        try:
            self._program.stdin.write(line.encode() + b"\n")
            self._program.stdin.flush()
        except BrokenPipeError:
            raise self._end() from None

    def _line(self):
        line = self._program.stdout.readline().decode()
        if not line.endswith("\n"):
            raise self._end()
        return line[:-1]

    def _end(self):
        status = self._program.wait()
        self._said.seek(0)
        return Ended(status, self._said.read().decode(errors="replace").split("\n")[0])
