"""Puts a twin of a function, under another name, at the end of its file: then two edits of the function can be tried in one check."""
import dataclasses
import re
import shutil

from modules.edit_files import ITEM


def can_have_twin(source, edit):
    """Whether an edit can be tried on a twin. It changes one function, which is no method of a trait and whose proof isn't written whole."""
    if edit.is_alone or len(edit.functions) != 1 or edit.functions[0].is_of_trait:
        return False
    return not any(any(place.glob("**/Proof.antt")) for place in proofs_of(source, edit.functions[0]))


def add_twin(source, folder, edit):
    """Adds the twin that an edit is tried on, and its proof, to the crate's copy in `folder`. It returns the twin."""
    (of,) = edit.functions
    path, lines = folder / of.file, (source / of.file).read_text().split("\n")
    added = ["", *head_of_holder(lines, of), *edited(lines, of, edit), *["}"] * (of.holder is not None)]
    whole = path.read_text().split("\n")
    path.write_text("\n".join([*whole, *added, ""]))
    copy_proofs(source, folder, of, edit.twin)
    return dataclasses.replace(of.renamed(edit.twin), first=len(whole) + 1, last=len(whole) + len(added))


def head_of_holder(lines, of):
    """The lines that open the impl which a function stands in, with the imports of its clauses, one line each. There are none outside an impl."""
    if of.holder is None:
        return []
    opening = next(at for at in range(of.holder, len(lines)) if lines[at].endswith("{"))
    inside = lines[opening + 1 : of.first - 1]
    return [*lines[of.holder : opening + 1], *(line for line in inside if line.startswith("    ghost use "))]


def edited(lines, of, edit):
    """The lines of a function with an edit, under the name of the twin."""
    changed = [edit.lines.get((of.file, at), lines[at]) for at in range(of.first - 1, of.last)]
    return [re.sub(rf"\bfn {of.name}\b", f"fn {edit.twin}", line) if ITEM.match(line) else line for line in changed]


def proofs_of(source, of):
    """The folders of a function's proofs and of those of its closures."""
    for place in sorted(source.glob(f"proofs/**/{of.name}")):
        name = "::".join([source.name, *place.relative_to(source / "proofs").parts])
        if of.names_in([name, f"{name}::closure"]):
            yield place


def copy_proofs(source, folder, of, twin):
    """Copies the proofs of a function and of its closures for its twin."""
    places = {place: place.relative_to(source).with_name(twin) for place in proofs_of(source, of)}
    for place, to in places.items():
        shutil.copytree(place, folder / to)
        for file in (folder / to).glob("**/*.antt"):
            text = file.read_text()
            for one, other in places.items():
                own = re.escape(module_at(source, one.relative_to(source)))
                text = re.sub(rf"{own}(?=\.)", module_at(source, other), text)
            file.write_text(text)


def module_at(source, place):
    """The module of proofs that a folder below a crate's holds."""
    return ".".join(["Rattle", source.name, *place.parts])
