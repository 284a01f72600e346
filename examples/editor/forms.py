"""The score of an edited performance in the forms that the program writes: a page, MusicXML, LilyPond's text, a MIDI file."""
import os
import subprocess
import tempfile

import rhythm


class Unwritten(Exception):
    """The program has not written the form, and has said why."""


def forms(form, midi, grammar, lines, options=()):
    """What `rhythm FORM MIDI GRAMMAR OPTION.. --script FILE` writes, with these lines as the script."""
    with tempfile.NamedTemporaryFile("w", suffix=".script") as script:
        script.writelines(line + "\n" for line in lines)
        script.flush()
        words = ["--script", script.name] if lines else []
        ran = subprocess.run([rhythm.PROGRAM, form, os.fspath(midi), os.fspath(grammar), *options, *words], capture_output=True)
    if ran.returncode:
        raise Unwritten(ran.stderr.decode(errors="replace").split("\n")[0])
    return ran.stdout
