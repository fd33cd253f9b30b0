"""Takes the bodies out of functions, so that the prover judges the others of a crate by what these promise.

A function without its body loops for ever, and has a hole in the place of its proof.
"""
import re
import shutil

from modules.edit_files import ITEM, end_of, function_at, indent

# What must keep its body: what is called while a crate is compiled, and what returns a closure.
KEPT = re.compile(r"\bconst fn|\bimpl (?:Fn|Iterator)")
HOLE = """use {module}.Statement.{{statement}}

pub {name}_spec : {{M : Type 1}} → statement M
{name}_spec = ?
"""


def opening_of(lines, first):
    """The number of the line whose brace opens the body of the function that begins at a line, or None where it has no body."""
    margin = " " * indent(lines[first])
    for at in range(first, len(lines)):
        if lines[at].endswith(";"):
            return None
        if lines[at].endswith("{") and (at == first or lines[at][len(margin) :][:1] in ("{", ")", ">")):
            return at
    return None


def head_of(lines, opening):
    """The text of a function's head, its clauses too, by the number of the line that opens its body."""
    first = next(at for at in range(opening, -1, -1) if ITEM.match(lines[at]))
    return " ".join(lines[first : opening + 1])


def bodies_in(crate, file, lines):
    """The functions of a source file that have a body of lines, each with the numbers of the lines around it."""
    at = 0
    while at < len(lines):
        found = ITEM.match(lines[at])
        opening = opening_of(lines, at) if found and found[1] == "fn" and found[2] else None
        last = end_of(lines, at)
        if opening is None or opening >= last:
            at += 1
            continue
        if not KEPT.search(" ".join(lines[at : opening + 1])):
            yield function_at(crate, file, lines, at), opening, last
        at = last + 1


def empty(folder, kept, names):
    """Takes the bodies out of the functions of a crate but those that are kept, and their proofs. `names` are the prover's: a function that
    none is of keeps its body."""
    emptied = set()
    for path in sorted(folder.glob("src/**/*.rt")):
        file, lines = str(path.relative_to(folder)), path.read_text().split("\n")
        for function, opening, last in bodies_in(folder.name, file, list(lines)):
            its = {name for name in names if function.named.fullmatch(name)}
            if its and not any(it.named.fullmatch(name) for it in kept for name in its):
                lines[opening + 1 : last] = ["loop {}", *[""] * (last - opening - 2)]
                emptied |= its
        path.write_text("\n".join(lines))
    for name in emptied:
        leave_hole(folder, name)


def leave_hole(folder, name):
    """Puts a hole in the place of the proof of the function with this name, and of those of its closures."""
    parts = name.split("::")[1:]
    place = folder.joinpath("proofs", *parts)
    for file in ("Answers.antt", "Invariants.antt"):
        (place / file).unlink(missing_ok=True)
    for at in range(len(parts)):
        shutil.rmtree(folder.joinpath("proofs", *parts[:at], "fn", *parts[at:]), ignore_errors=True)
    place.mkdir(parents=True, exist_ok=True)
    module = ".".join(["Rattle", folder.name, "proofs", *parts])
    (place / "Proof.antt").write_text(HOLE.format(module=module, name=parts[-1]))
