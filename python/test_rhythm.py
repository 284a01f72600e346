#!/usr/bin/env python3
"""Tests of the module `rhythm` on the program in bin/: python/test_rhythm.py"""
import fractions
import pathlib
import unittest

import rhythm

TOP = pathlib.Path(__file__).resolve().parent.parent
PIECE = TOP / "examples/four-quarters.mid"
HALVES = TOP / "examples/halves.rhy"
VOICES = TOP / "examples/two-voices.mid", TOP / "examples/two-voices.rhy"
WANDERING = TOP / "examples/wandering.mid", TOP / "grammars/duple.rhy"
rhythm.PROGRAM = str(TOP / "bin/rhythm")


class Commands(unittest.TestCase):
    def test_a_score_is_that_of_the_examples(self):
        score = (TOP / "examples/two-voices.krn").read_text()
        self.assertEqual(rhythm.transcribe(*VOICES), score)
        self.assertEqual(rhythm.transcribe(*map(str, VOICES), workers=3), score)

    def test_what_a_file_has(self):
        found = rhythm.notes(VOICES[0])
        self.assertEqual(found.bars, [rhythm.Bar(0, 0, "4/4"), rhythm.Bar(1, 1920, "4/4")])
        self.assertEqual((found.tempos, found.keys), ([rhythm.Tempo(0, 600000)], [rhythm.Key(0, -1)]))
        self.assertEqual((found.notes[0], len(found.notes), found.end), (rhythm.Note(0, 72, 0, 470), 12, 3840))
        self.assertEqual(found.channels(), [0, 1])

    def test_what_a_score_has(self):
        found = rhythm.events(rhythm.transcribe(*VOICES))
        whole = fractions.Fraction
        self.assertEqual(found[5], rhythm.Event(1, whole(5, 4), whole(1, 4), False, (82,), ((81,),)))
        self.assertEqual(found[9], rhythm.Event(2, whole(3, 2), whole(1, 4), True, (43,), ()))

    def test_what_is_refused_has_its_status_and_line(self):
        with self.assertRaises(rhythm.Ended) as met:
            rhythm.notes(HALVES)
        self.assertEqual((met.exception.status, met.exception.line), (2, "smf NotSmf"))
        with self.assertRaises(rhythm.Ended) as met:
            rhythm.events("**kern\n4c\n")
        self.assertEqual((met.exception.status, met.exception.line), (2, "kern 2 Place"))

    def test_the_lines_that_follow_the_player_are_edits(self):
        lines = rhythm.follow(*WANDERING)
        with rhythm.Session(*WANDERING) as session:
            before = session.score()
            for line in lines:
                session.edit(line)
            self.assertNotEqual(session.score(), before)
            self.assertEqual(session.script(), lines)


class Sessions(unittest.TestCase):
    def setUp(self):
        self.session = rhythm.Session(PIECE, HALVES)
        self.addCleanup(self.session.close)

    def test_edits_are_made_and_taken_back(self):
        session, score = self.session, self.session.score()
        self.assertEqual(session.add(0, 64, 10, 480), rhythm.Edited(0, 100))
        self.assertIn("4c 4e", session.score())
        session.move(0, 64, 10, 0)
        session.drop(0, 64, 0)
        self.assertEqual(session.script(), ["add 0 64 10 480", "move 0 64 10 0", "drop 0 64 0"])
        for _ in range(3):
            session.undo()
        self.assertEqual((session.script(), session.score()), ([], score))
        session.redo()
        self.assertEqual(session.script(), ["add 0 64 10 480"])
        session.add_bar()
        session.drop_bar()
        with self.assertRaises(rhythm.Refused):
            session.redo()
        self.assertEqual(session.script(), ["add 0 64 10 480", "addbar", "dropbar"])

    def test_a_saved_script_is_the_session(self):
        self.session.add_bar()
        self.session.barline(2, 4000)
        self.session.pin(0, 0, self.session.alternatives(0, 0)[1].shape)
        with rhythm.Session(PIECE, HALVES, workers=2) as other:
            for line in self.session.script():
                other.edit(line)
            self.assertEqual(other.score(), self.session.score())

    def test_other_rhythms(self):
        first, second = self.session.alternatives(0, 0, 2)
        self.assertEqual(second, rhythm.Alternative(150, "2(2(. .) 2(. 2(. .)))", (3, 7, 8, 8, 7, 8, 12, 13, 15)))
        self.assertEqual(self.session.pin(0, 0, second.shape), rhythm.Edited(1, 150))
        self.assertEqual(self.session.unpin(0, 0).cost, first.cost)

    def test_a_refusal_carries_the_words_and_changes_nothing(self):
        score = self.session.score()
        refusals = [
            (lambda: self.session.drop(0, 61, 0), ("NoNote",)),
            (lambda: self.session.add(0, 64, 0, 5000), ("PastEnd", 1920)),
            (lambda: self.session.pin(0, 0, "2(. .)"), ("NoDerivation", 0, 0)),
            (lambda: self.session.pin(0, 0, "sung"), ("Line",)),
            (lambda: self.session.alternatives(3, 0), ("NoVoice", 3)),
            (self.session.undo, ("NoStep",)),
        ]
        for call, (name, *about) in refusals:
            with self.assertRaises(rhythm.Refused) as met:
                call()
            self.assertEqual((met.exception.name, met.exception.about), (name, tuple(about)))
        self.assertEqual((self.session.script(), self.session.score()), ([], score))

    def test_only_edits_are_lines_of_a_script(self):
        for line in ("quit", "score", "undo", "add 0 64 10 480\nquit", ""):
            with self.assertRaises(ValueError):
                self.session.edit(line)
        self.assertEqual(self.session.add_bar().built, 1)

    def test_a_session_that_cannot_be_opened(self):
        for words, status, line in [((HALVES, HALVES), 2, "smf NotSmf"), ((PIECE, PIECE), 2, "grammar 1 Header"), (("none", HALVES), 5, "read midi")]:
            with self.assertRaises(rhythm.Ended) as met:
                rhythm.Session(*words)
            self.assertEqual((met.exception.status, met.exception.line), (status, line))

    def test_a_program_that_is_killed_is_told(self):
        self.session._program.kill()
        with self.assertRaises(rhythm.Ended) as met:
            self.session.score()
        self.assertEqual(met.exception.status, -9)

    def test_it_is_closed_twice(self):
        self.session.close()
        self.session.close()


if __name__ == "__main__":
    unittest.main()
