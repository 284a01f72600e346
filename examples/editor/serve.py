#!/usr/bin/env python3
"""An editor for a performance, in the browser: what was played, what is written of it, and how to correct it.

    examples/editor/serve.py MIDI GRAMMAR [OPTION..] [--script FILE] [--port N] [--workers N] [--program FILE]

    OPTION           what is told of a recording, as in --hands 0 --meter 3/4 (docs/PREPARE.md)
    --script FILE    opens with the edits of a script that was saved
    --port N         the port on 127.0.0.1; without it a free one
    --workers N      threads of the program `rhythm`, 1 to 16
    --program FILE   the program; without it that of this repository, or else `rhythm` on the path

It prints an address, which a browser on this machine opens. It serves one piece until it is ended by Ctrl+C; nothing is written to a file
but what the browser saves. docs/EDITOR.md tells the rest.
"""
import argparse
import pathlib
import signal
import sys

TOP = pathlib.Path(__file__).resolve().parent.parent.parent
sys.path.insert(0, str(TOP / "python"))

import rhythm
import words
from editing import Editor
from web import Server


PREPARING = ["split", "hands", "strum", "meter", "tempo", "upbeat", "key"]  # options of the program that a word follows


def given():
    """The words of the command line."""
    asked = argparse.ArgumentParser(description=__doc__, formatter_class=argparse.RawDescriptionHelpFormatter)
    asked.add_argument("midi", metavar="MIDI")
    asked.add_argument("grammar", metavar="GRAMMAR")
    asked.add_argument("--no-drums", action="store_true")
    for name in PREPARING:
        asked.add_argument(f"--{name}")
    asked.add_argument("--script", metavar="FILE")
    asked.add_argument("--port", type=int, default=0, metavar="N")
    asked.add_argument("--workers", type=int, default=1, metavar="N")
    asked.add_argument("--program", metavar="FILE")
    return asked.parse_args()


def program(named):
    """The program that is named, or that of this repository where there is one, or that on the path."""
    built = TOP / "bin/rhythm"
    return named or (str(built) if built.exists() else "rhythm")


def options(asked):
    """What is told of the recording, as words for the program."""
    told = [f"--{name}={getattr(asked, name)}" for name in PREPARING if getattr(asked, name) is not None]
    return ["--no-drums", *told] if asked.no_drums else told


def opened(asked):
    """The editor on the two files, or the end with a line that says what is wrong."""
    try:
        lines = pathlib.Path(asked.script).read_text(encoding="utf-8").splitlines() if asked.script else []
        return Editor(asked.midi, asked.grammar, [line for line in lines if line], asked.workers, options(asked))
    except (rhythm.Ended, OSError) as ended:
        sys.exit(f"serve.py: {ended}")
    except rhythm.Refused as refused:
        sys.exit(f"serve.py: a line of the script is refused. {words.refusal(refused)}")
    except ValueError:
        sys.exit(f"serve.py: {words.NO_EDIT}")


def main():
    asked = given()
    rhythm.PROGRAM = program(asked.program)
    editor = opened(asked)
    try:
        server = Server(editor, asked.port)
    except (OSError, OverflowError) as fault:
        sys.exit(f"serve.py: the port {asked.port} is not to be had: {fault}")
    signal.signal(signal.SIGTERM, signal.default_int_handler)
    server.answers.start()
    print(server.address, flush=True)
    try:
        server.serve_forever()
    except KeyboardInterrupt:
        pass
    finally:
        server.server_close()
        editor.close()


if __name__ == "__main__":
    main()
