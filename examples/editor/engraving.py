"""Some bars of the score as a page that LilyPond engraves, in a thread of its own: always the newest that is asked for."""
import contextlib
import os
import re
import shutil
import subprocess
import tempfile
import threading


LONGEST = 60  # seconds that LilyPond may take for a page
PAGES = 200  # after so many pages it is started anew
WORDS = ["nice", "lilypond", "--svg", "-dno-point-and-click", "--loglevel=ERROR"]
# a file that says that LilyPond is ready, waits for a word, and then is the page that is wanted; without a word it is the end
WAITING = """#(begin (display "ready\\n") (force-output) (if (eof-object? (read)) (primitive-exit 0)))
\\include "wanted.ly"
"""
# LilyPond looks for each note head in the text of a font, which takes longer than all else: here what was found is kept. It is left as it is
# where a version of LilyPond has no function of this name
GLYPHS = """#(false-if-exception
  (let* ((writer (resolve-module '(lily output-svg)))
         (look-for (module-ref writer 'cache-font))
         (found (make-hash-table)))
    (define (glyph-path font size glyph)
      (let ((place (list font size glyph)))
        (or (hash-ref found place)
            (let ((path (look-for font size glyph)))
              (hash-set! found place path)
              path))))
    (module-set! writer 'cache-font
      (lambda (font size glyph)
        (if (string? glyph) (glyph-path font size glyph) (look-for font size glyph))))))
"""
PAPER = """\\paper {{
  paper-width = {width:.0f}\\mm indent = 20\\mm short-indent = 8\\mm page-breaking = #ly:one-page-breaking
  top-margin = 2\\mm bottom-margin = 2\\mm left-margin = 4\\mm right-margin = 4\\mm
}}
"""


def has_lilypond():
    return shutil.which("lilypond") is not None


def some_bars(page, first, last, width):
    """The bars from first to last, counted from 0, of a page that `rhythm page` has written, on paper so many millimetres wide."""
    lines, bar, said = [], 0, {}
    for line in page.split("\n"):
        if line.startswith("\\new Staff "):
            bar, said = 0, {}
        if line.endswith(" |"):
            if bar == first:
                lines += [*said.values(), f"\\set Score.currentBarNumber = #{bar + 1}"]
            if first <= bar <= last:
                lines.append(line)
            bar += 1
        elif re.match(r"\\(clef|key|time|tempo) ", line):
            # what was said last before the first of these bars is in force there; a later change stands where it is
            if first < bar <= last:
                lines.append(line)
            elif bar <= first:
                said[line.split(" ")[0]] = line
        elif not line.startswith("\\bar ") or last >= bar - 1:
            lines.append(line)
    return "\n".join(lines).replace("\\score {", PAPER.format(width=width) + "\\score {", 1)


class Dropped(Exception):
    """A newer page was asked for before this one was engraved."""


class Unengraved(Exception):
    """LilyPond has made no page."""


class LilyPond:
    """A LilyPond that is started and waits for pages, as it takes longer to start than to engrave some bars.

    It is given many files that wait, one after another, and what they are to be is written before each is let go on.
    """

    def __init__(self):
        self._folder = self._process = None
        self._next, self._closed = 0, False

    def engrave(self, text):
        """A page as SVG."""
        if not self._process or self._process.poll() is not None or self._next == PAGES:
            self.start()
        limit = threading.Timer(LONGEST, self._process.kill)
        limit.start()
        try:
            self._write("wanted.ly", text)
            self._process.stdin.write(b"go\n")
            self._process.stdin.flush()
            self._process.stdout.readline()  # it is ready for another page, so this one is made
            with open(self._path(f"{self._next}.svg"), "rb") as page:
                return page.read()
        except OSError as met:
            raise Unengraved from met
        finally:
            limit.cancel()
            self._next += 1

    def start(self):
        """Starts it, and waits until it is ready for a page."""
        self._end()
        if self._closed:
            raise Unengraved
        self._folder, self._next = tempfile.mkdtemp(), 0
        files = [f"{number}.ly" for number in range(PAGES + 1)]
        for file in files:
            self._write(file, GLYPHS + WAITING if file == files[0] else WAITING)
        pipe, quiet = subprocess.PIPE, subprocess.DEVNULL
        self._process = subprocess.Popen([*WORDS, *files], cwd=self._folder, stdin=pipe, stdout=pipe, stderr=quiet)
        self._process.stdout.readline()

    def _path(self, name):
        return os.path.join(self._folder, name)

    def _write(self, name, text):
        with open(self._path(name), "w", encoding="utf-8") as file:
            file.write(text)

    def close(self):
        """Ends it for good."""
        self._closed = True
        self._end()

    def _end(self):
        if self._process:
            self._process.kill()
            self._process.communicate()
        if self._folder:
            shutil.rmtree(self._folder, ignore_errors=True)


class Engraver:
    """Engraves one page at a time, of what `form("page", lines)` writes. Of those that are asked for meanwhile the newest is next, and the others are dropped."""

    def __init__(self, form):
        self._form = form
        self._change = threading.Condition()
        self._newest, self._wanted, self._made = 0, None, (0, None)
        self._lilypond, self._worker = LilyPond(), None

    def start(self):
        """Starts LilyPond before a page is asked for."""
        if not self._worker:
            self._worker = threading.Thread(target=self._work, daemon=True)
            self._worker.start()

    def page(self, lines, first, last, width):
        """The page of some bars after the lines of a script, as SVG. Waits until it is engraved, or a newer one is asked for."""
        with self._change:
            self.start()
            self._newest += 1
            mine, self._wanted = self._newest, (lines, first, last, width)
            self._change.notify_all()
            self._change.wait_for(lambda: self._newest != mine or self._made[0] == mine)
            if self._newest != mine:
                raise Dropped
            if isinstance(self._made[1], Exception):
                raise self._made[1]
            return self._made[1]

    def close(self):
        self._lilypond.close()

    def _work(self):
        with contextlib.suppress(Unengraved, OSError):
            self._lilypond.start()
        while True:
            with self._change:
                self._change.wait_for(lambda: self._wanted)
                number, (lines, first, last, width), self._wanted = self._newest, self._wanted, None
            try:
                page = self._form("page", lines).decode()
                made = self._lilypond.engrave(some_bars(page, first, last, width))
            except Exception as met:  # the one who waits is told
                made = met
            with self._change:
                self._made = number, made
                self._change.notify_all()
