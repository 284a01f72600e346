#!/usr/bin/env python3
"""Tests of the editor without a browser, on the program in bin/: examples/editor/test_server.py"""
import concurrent.futures
import http.client
import json
import os
import pathlib
import random
import sys
import threading
import unittest

TOP = pathlib.Path(__file__).resolve().parent.parent.parent
sys.path.insert(0, str(TOP / "python"))

import rhythm
from editing import Editor, Stale
from engraving import some_bars
from forms import forms
from web import LONGEST_STEP, Server

rhythm.PROGRAM = os.environ.get("PROGRAM") or str(TOP / "bin/rhythm")
PIECES = [
    (TOP / "examples/two-voices.mid", TOP / "examples/two-voices.rhy"), (TOP / "examples/barlines.mid", TOP / "grammars/general.rhy"),
    (TOP / "examples/graces.mid", TOP / "grammars/triple.rhy"), (TOP / "examples/wandering.mid", TOP / "grammars/duple.rhy"),
]


def after(midi, grammar, lines):
    """The score of a new session after these lines."""
    with rhythm.Session(midi, grammar) as session:
        for line in lines:
            session.edit(line)
        return session.score()


def some_step(chance, editor):
    """The call of a step that is drawn by chance, which may be refused."""
    channel, key, onset, end, *_ = chance.choice(editor.piece()["notes"])
    bars = editor.piece()["signatures"]
    bar, tick, version = chance.randrange(len(bars)), chance.randrange(2000), editor.version
    shapes = editor.alternatives(channel, bar)
    return chance.choice([
        lambda: editor.edit(version, [f"add {channel} {key + 1} {tick} {tick + 300}"]),
        lambda: editor.edit(version, [f"drop {channel} {key} {onset}"]),
        lambda: editor.edit(version, [f"move {channel} {key} {onset} {max(onset + chance.randint(-300, 300), 0)}"]),
        lambda: editor.edit(version, [f"drop {channel} {key} {onset}", f"add {channel} {key} {onset} {end + 200}"]),
        lambda: editor.edit(version, [f"barline {bar + 1} {editor.piece()['starts'][bar + 1] + chance.randint(-90, 90)}"]),
        lambda: editor.edit(version, [chance.choice(["addbar", "dropbar"])]),
        lambda: editor.edit(version, [f"pin {channel} {bar} {chance.choice(shapes)['shape']}", f"unpin {channel} {bar}"]),
        lambda: editor.edit(version, [f"pin {channel} {bar} {chance.choice(shapes)['shape']}"]),
        lambda: editor.fit(version, bar + 1), lambda: editor.undo(version), lambda: editor.redo(version),
    ])


class Shown:
    """What the page shows, put together of all that the server tells it."""

    def __init__(self, piece):
        self.texts, self.notes, self.heads = [], {}, {}
        self.take(piece)

    def take(self, told):
        self.heads.update({name: told[name] for name in ("starts", "signatures", "pins", "cost", "steps") if name in told})
        self.texts[told["first"] : told["first"] + len(told["texts"])] = told["texts"]
        del self.texts[len(self.heads["signatures"]) :]
        for note in told["gone"]:
            del self.notes[tuple(note)]
        self.notes.update({tuple(note[:3]): tuple(note[3:]) for note in told["notes"]})

    def all(self):
        return self.texts, self.notes, self.heads["starts"], self.heads["signatures"], sorted(self.heads["pins"])


class Editing(unittest.TestCase):
    def opened(self, *words):
        editor = Editor(*words)
        self.addCleanup(editor.close)
        return editor

    def test_what_is_shown_is_what_a_new_session_shows(self):
        chance = random.Random(7)
        for files in PIECES:
            editor = self.opened(*files)
            shown = Shown(editor.piece())
            for _ in range(25):
                try:
                    shown.take(some_step(chance, editor)() or editor.piece())
                except rhythm.Refused:
                    pass
                fresh = Editor(*files, editor.script())
                self.assertEqual(shown.all(), Shown(fresh.piece()).all(), editor.script())
                self.assertEqual(shown.heads["cost"], fresh.piece()["cost"])
                fresh.close()
            self.assertEqual(editor.score(), after(*files, editor.script()))

    def test_each_note_is_where_its_key_sounds(self):
        for files in PIECES:
            editor = self.opened(*files)
            piece, wholes = editor.piece(), [0]
            for signature in piece["signatures"]:
                num, den = map(int, signature.split("/"))
                wholes.append(wholes[-1] + num / den)
            sounds = set()
            for event in rhythm.events(editor.score()):
                channel, onset = piece["channels"][event.column - 1], round(float(event.onset), 4)
                sounds |= {(channel, key, onset) for keys in (event.keys, *event.graces) for key in keys}
            found = set()
            for channel, key, _onset, _end, begin, *_ in piece["notes"]:
                bar = min(int(begin), len(wholes) - 2)
                found.add((channel, key, round(wholes[bar] + (begin - bar) * (wholes[bar + 1] - wholes[bar]), 4)))
            self.assertEqual(found, sounds)

    def test_a_step_is_made_whole_or_not_at_all(self):
        editor = self.opened(*PIECES[0])
        score = editor.score()
        with self.assertRaises(rhythm.Refused):
            editor.edit(editor.version, ["drop 0 72 0", "drop 0 72 0"])
        with self.assertRaises(ValueError):
            editor.edit(editor.version, ["drop 0 72 0", "score"])
        self.assertEqual((editor.score(), editor.script()), (score, []))

    def test_more_steps_are_taken_back_than_a_session_keeps(self):
        editor = self.opened(*PIECES[3])
        score = editor.score()
        for _ in range(40):
            editor.edit(editor.version, ["addbar", "dropbar"])
        for _ in range(40):
            editor.undo(editor.version)
        self.assertEqual((editor.score(), editor.piece()["steps"]), (score, [0, 40]))
        for _ in range(40):
            editor.redo(editor.version)
        self.assertEqual((editor.script(), editor.piece()["steps"]), (["addbar", "dropbar"] * 40, [40, 0]))

    def test_follow_is_one_step_of_the_lines_of_the_program(self):
        editor = self.opened(*PIECES[3])
        editor.follow()
        self.assertEqual(editor.script(), rhythm.follow(*PIECES[3]))
        self.assertEqual(editor.piece()["steps"], [1, 0])

    def test_a_barline_is_fitted(self):
        editor = self.opened(TOP / "examples/two-notes.mid", TOP / "examples/halves.rhy")
        editor.fit(editor.version, 1)
        self.assertEqual((editor.script(), editor.piece()["cost"]), (["barline 1 1900"], 20))
        self.assertIsNone(editor.fit(editor.version, 1))

    def test_a_program_that_ends_is_opened_again(self):
        editor = self.opened(*PIECES[0])
        editor.edit(editor.version, ["addbar"])
        with self.assertRaises(rhythm.Ended):
            editor.edit(editor.version, ["addbar " + "x" * 5000])
        self.assertEqual((editor.script(), editor.score()), (["addbar"], after(*PIECES[0], ["addbar"])))

    def test_a_script_that_is_refused_leaves_the_piece(self):
        editor = self.opened(*PIECES[0])
        editor.edit(editor.version, ["addbar"])
        with self.assertRaises(rhythm.Refused):
            editor.open(editor.version, ["addbar", "drop 0 1 0"])
        self.assertEqual(editor.script(), ["addbar"])
        editor.open(editor.version, ["drop 0 72 0"])
        self.assertEqual((editor.script(), editor.score()), (["drop 0 72 0"], after(*PIECES[0], ["drop 0 72 0"])))

    def test_some_bars_of_a_page(self):
        page = forms("page", *PIECES[1], []).decode()
        found = some_bars(page, 1, 2, 200)
        self.assertEqual(found.count(" |"), 4)
        self.assertIn("\\time 4/4\n\\tempo 4 = 96\n\\set Score.currentBarNumber = #2\nd''2 c''8 b'8 a'4 |\n\\time 3/4\nb'2. |\n}", found)
        said = "\\clef \"bass\"\n\\key g \\major\n\\time 3/4\n\\set Score.currentBarNumber = #5\n"
        self.assertIn(said + "g,2. |\n\\bar \"|.\"", some_bars(page, 4, 9, 200))

    def test_a_recording_as_options_tell(self):
        files, told = (TOP / "examples/keyboard.mid", TOP / "grammars/triple.rhy"), ["--hands=0", "--meter=3/4", "--tempo=93", "--upbeat=1/4"]
        editor = Editor(*files, options=told)
        self.addCleanup(editor.close)
        self.assertEqual(editor.score(), rhythm.transcribe(*files, options=told))
        editor.edit(editor.version, ["addbar"])
        self.assertEqual(editor.form("transcribe", editor.script()).decode(), editor.score())

    def test_forms_of_an_edited_piece(self):
        lines = rhythm.follow(*PIECES[3])
        self.assertEqual(forms("transcribe", *PIECES[3], lines).decode(), after(*PIECES[3], lines))


class Requests(unittest.TestCase):
    """What is answered to requests as a page of another origin or a broken program might send them."""

    def setUp(self):
        self.editor = Editor(*PIECES[0])
        self.addCleanup(self.editor.close)
        self.server = Server(self.editor)
        threading.Thread(target=self.server.serve_forever, daemon=True).start()
        self.addCleanup(self.server.server_close)
        self.addCleanup(self.server.shutdown)
        self.before = self.editor.piece()

    def asked(self, method, name, body=None, secret=None, **heads):
        """The status and the answer to a request; the headers of a good one stand where no others are named."""
        heads = {it.replace("_", "-"): value for it, value in heads.items()}
        heads = {"Host": self.server.host, "Content-Type": "application/json", **heads}
        link = http.client.HTTPConnection("127.0.0.1", self.server.server_port, timeout=20)
        try:
            link.request(method, f"/{secret or self.server.secret}/{name}", body, heads)
            answer = link.getresponse()
            return answer.status, answer.read()
        finally:
            link.close()

    def step(self, line, version=None, **heads):
        return self.asked("POST", "edit", json.dumps({"version": version or self.editor.version, "lines": [line]}), **heads)

    def unchanged(self):
        self.assertEqual(self.editor.piece(), self.before)

    def test_a_good_one_is_answered(self):
        self.assertEqual(self.asked("GET", "piece")[0], 200)
        status, answer = self.step("addbar", Origin=f"http://{self.server.host}", Sec_Fetch_Site="same-origin")
        self.assertEqual((status, json.loads(answer)["built"], self.editor.script()), (200, 2, ["addbar"]))
        self.assertEqual(self.asked("GET", "script"), (200, b"addbar\n"))
        self.assertEqual(self.asked("GET", "kern")[1].decode(), after(*PIECES[0], ["addbar"]))

    def test_other_hosts_and_origins_are_not_answered(self):
        port = self.server.server_port
        for host in ("example.org", f"localhost:{port}", "127.0.0.1", f"127.0.0.1:{port}.example.org", f"[::1]:{port}", ""):
            self.assertEqual(self.step("addbar", Host=host)[0], 421, host)
        for origin in ("http://example.org", f"http://localhost:{port}", f"https://127.0.0.1:{port}", "null", ""):
            self.assertEqual(self.step("addbar", Origin=origin)[0], 403, origin)
            self.assertEqual(self.asked("GET", "piece", Origin=origin)[0], 403, origin)
        self.assertEqual(self.step("addbar", Sec_Fetch_Site="cross-site")[0], 403)
        self.unchanged()

    def test_other_names_and_paths_are_not_answered(self):
        for name in ("other", "serve.py", "..", "../serve.py", "%2e%2e/serve.py", "static/main.js", "__init__", "close", "piece?x", "keep"):
            self.assertEqual(self.asked("GET", name)[0], 404, name)
            self.assertEqual(self.asked("POST", name, "{}")[0], 404, name)
        for secret in ("x", self.server.secret[:-1], self.server.secret + "a"):
            self.assertEqual(self.asked("GET", "piece", secret=secret)[0], 404)
        self.assertIn(self.asked("PUT", "edit", "{}")[0], (405, 501))
        self.unchanged()

    def test_requests_that_are_no_steps_are_not_answered(self):
        version = self.editor.version
        long = json.dumps({"version": version, "lines": ["addbar" * LONGEST_STEP]})
        for status, body, heads in [
            (400, "", {}), (400, "{", {}), (400, "[]", {}), (400, "{}", {}), (400, "[" * 60000, {}), (413, long, {}),
            (400, json.dumps({"version": version, "lines": []}), {}), (400, json.dumps({"version": version, "lines": "addbar"}), {}),
            (400, json.dumps({"version": True, "lines": ["addbar"]}), {}), (415, "{}", {"Content_Type": "text/plain"}),
            (411, "{}", {"Content_Length": "-1"}), (413, "{}", {"Content_Length": "999999999"}),
        ]:
            self.assertEqual(self.asked("POST", "edit", body, **heads)[0], status, body[:60])
        self.unchanged()

    def test_lines_that_are_no_edits_are_refused(self):
        shape = "2(" * 200
        for line in ("quit", "score", "", "undo", "addbar\nquit", "add 0 64", "add 0 64 0 99999999999", "drop 0 61 0", f"pin 0 0 {shape}"):
            status, answer = self.step(line)
            self.assertEqual((status, [*json.loads(answer)]), (200, ["refused"]), line)
        self.assertEqual(self.step("pin 0 0 " + "2(" * 3000)[0], 500)  # the program ends at a line so long, and is opened again
        self.assertEqual((self.editor.script(), self.editor.score()), ([], after(*PIECES[0], [])))

    def test_of_two_at_once_one_is_made(self):
        version = self.editor.version
        with concurrent.futures.ThreadPoolExecutor(2) as both:
            answers = [*both.map(lambda line: self.step(line, version)[0], ["add 0 60 100 200", "add 0 62 100 200"])]
        self.assertEqual(sorted(answers), [200, 409])
        self.assertEqual(len(self.editor.script()), 1)
        self.assertEqual(self.editor.score(), after(*PIECES[0], self.editor.script()))

    def test_a_step_on_an_older_state_is_not_made(self):
        version = self.editor.version
        self.step("addbar")
        self.assertEqual(self.step("addbar", version)[0], 409)
        with self.assertRaises(Stale):
            self.editor.undo(version)
        self.assertEqual(self.editor.script(), ["addbar"])


if __name__ == "__main__":
    unittest.main()
