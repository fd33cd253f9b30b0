#!/usr/bin/env python3
"""Tries what must not compile since it uses a value again that a call took, or changes what is only shared.

    tools/moved.py

A trial is a file crates/NAME/moved/WHAT.edit, in the form of an edit that must fail. It changes a test so that it does so. A copy with it
is compiled, and the compiler has to say one of `SAID` there. The last line is `N passed, M failed`: of N trials it says that. The status is
0 only where M is 0.
"""
import argparse
import pathlib
import shutil
import signal
import subprocess
import sys
import tempfile

sys.dont_write_bytecode = True
from modules.crates import TOP
from modules.edit_files import BadEdit, read_edit

SAID = ("use of moved value", "as mutable, as it is behind a `&` reference")


def copy_to(room):
    """Copies the sources of all crates to a room of their own, without what was built of them."""
    shutil.copy(TOP / "crates.txt", room)
    shutil.copytree(TOP / "crates", room / "crates", ignore=shutil.ignore_patterns("out"))


def said_of(room, trial):
    """What the compiler says of a trial: the line that refuses it, or None, with the last line that it says."""
    folder = room / "crates" / trial.parent.parent.name
    edit = read_edit(folder, trial.name, trial.read_text())
    texts = {file: (folder / file).read_text() for file, _ in edit.lines}
    for file, text in texts.items():
        lines = text.split("\n")
        (folder / file).write_text("\n".join(edit.lines.get((file, at), line) for at, line in enumerate(lines)))
    ran = subprocess.run(["rt", "try", "--test"], cwd=folder, stdin=subprocess.DEVNULL, capture_output=True, text=True)
    for file, text in texts.items():
        (folder / file).write_text(text)
    lines = (ran.stdout + ran.stderr).splitlines()
    places = [f"{file}:{at + 1}:" for file, at in edit.lines]
    refused = [line for line in lines if any(said in line for said in SAID) and line.startswith(tuple(places))]
    return next(iter(refused), None), (lines or ["it said nothing"])[-1]


def main():
    argparse.ArgumentParser(description=__doc__, formatter_class=argparse.RawDescriptionHelpFormatter).parse_args()
    # a stopped run leaves no room and no compiler behind
    signal.signal(signal.SIGTERM, lambda *_: sys.exit(1))
    trials = sorted(TOP.glob("crates/*/moved/*.edit"))
    passed = 0
    with tempfile.TemporaryDirectory(prefix="moved-") as name:
        room = pathlib.Path(name)
        copy_to(room)
        for trial in trials:
            try:
                refused, last = said_of(room, trial)
            except BadEdit as error:
                refused, last = None, str(error)
            passed += refused is not None
            print(f"refused: {trial.name}: {refused}" if refused else f"NOT REFUSED {trial.name}: {last}", flush=True)
    print(f"{passed} passed, {len(trials) - passed} failed")
    sys.exit(passed != len(trials) or not trials)


if __name__ == "__main__":
    main()
