#!/usr/bin/env python3
"""Edits a performance: adds a note, looks for other rhythms of the first bar, pins one, takes it back, and shows the score.

    examples/client.py MIDI GRAMMAR
"""
import pathlib
import sys

sys.path.insert(0, str(pathlib.Path(__file__).resolve().parent.parent / "python"))
import rhythm


def others(session, channel, bar):
    """Of the best rhythms of a bar those whose notes or lengths are not those of its own rhythm or of a better one, with their scores."""
    known = [rhythm.events(session.score())]
    for other in session.alternatives(channel, bar):
        session.pin(channel, bar, other.shape)
        score = session.score()
        session.undo()
        if rhythm.events(score) not in known:
            known.append(rhythm.events(score))
            yield other, score


def first_bar(score):
    """What the first bar has in the first column, rests and ties among it."""
    column = [line.split("\t")[0] for line in score.splitlines()]
    return [token for token in column[column.index("=1") + 1 : column.index("=2")] if token != "."]


with rhythm.Session(*sys.argv[1:]) as session:
    print(session.add(channel=0, key=84, onset=2890, end=3170))
    found = list(others(session, 0, 0))
    for other, score in found:
        print(other.cost, *first_bar(score))
    print(session.pin(0, 0, found[0][0].shape), session.undo())
    print(session.script())
    print(session.score(), end="")
