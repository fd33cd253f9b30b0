"""The crates of this checkout, as crates.txt names them."""
import functools
import pathlib
import subprocess
import sys

TOP = pathlib.Path(__file__).resolve().parent.parent.parent


def listed(top=TOP):
    """The crates of crates.txt in its order, each with the names of those that it stands on."""
    lines = [line.partition("#")[0].partition(":") for line in (top / "crates.txt").read_text().splitlines()]
    return {head.split()[0]: names.split() for head, _, names in lines if head.strip()}


def below(lines, crate):
    """The crates that a crate stands on, and itself."""
    return {crate}.union(*(below(lines, name) for name in lines[crate] if name in lines))


def require_listed(names):
    """Ends the tool by one line where a name is of no crate."""
    for name in names:
        if name not in listed():
            sys.exit(f"crates.txt names no crate {name}")


@functools.cache
def untracked():
    """The crates of which git tracks no file: a user's own. Without git there is none."""
    try:
        ran = subprocess.run(["git", "ls-files", "crates"], cwd=TOP, capture_output=True, text=True)
    except FileNotFoundError:
        return []
    tracked = {line.split("/")[1] for line in ran.stdout.splitlines()}
    return [name for name in listed() if tracked and name not in tracked]
