"""Reads edits that must fail, and finds the functions that they change.

An edit changes lines of source files. The sources are in rt's layout: an item's closing brace stands below its first letter.
"""
import dataclasses
import re

ITEM = re.compile(r"\s*(?:pub(?:\([^)]*\))? )?(?:const )?(?:unsafe )?(fn|impl|trait)\b\s*(\w*)")


class BadEdit(Exception):
    """Why an edit can't be applied."""


@dataclasses.dataclass(frozen=True)
class Function:
    """A function: its lines in its file, from 1, and how the prover's names for it and for its closures read. `holder` is the number, from 0, of
    the line of its impl or trait, or None. `is_of_trait` says whether a trait names the function."""

    file: str
    first: int
    last: int
    named: re.Pattern
    name: str
    holder: int | None
    is_of_trait: bool

    def holds(self, file, line):
        return file == self.file and self.first <= line <= self.last

    def names_in(self, functions):
        """Those of the prover's names of functions that are its own and those of its closures."""
        return [name for name in functions if self.named.fullmatch(name)]

    def renamed(self, name):
        """The same function under another name."""
        named = re.sub(rf"\b{self.name}(?=\||::\\S)", name, self.named.pattern)
        return dataclasses.replace(self, named=re.compile(named), name=name)


@dataclasses.dataclass
class Edit:
    """An edit: the lines that it changes, by file and number from 0, and the functions that they stand in. One that is tried on a twin of its
    function has the twin's name."""

    name: str
    lines: dict
    functions: list
    is_alone: bool
    twin: str = ""

    def on_twin(self, number):
        """The same edit, to be tried on a twin of its function."""
        return dataclasses.replace(self, twin=f"{self.functions[0].name}_twin_{number}")

    def twin_of(self):
        """The file and the name of the function whose twin it is tried on, or None."""
        return (self.functions[0].file, self.twin.rpartition("_twin_")[0]) if self.twin else None


def indent(line):
    return len(line) - len(line.lstrip())


def end_of(lines, first):
    """The number of the line that ends an item."""
    brace = " " * indent(lines[first]) + "}"
    if lines[first].endswith("}"):
        return first
    return next((at for at in range(first, len(lines)) if lines[at] == brace), len(lines) - 1)


def item_around(lines, at, kinds):
    """The number of the line at which the innermost item of these kinds begins that holds line `at`, its header too, or None."""
    for number in range(at, -1, -1):
        found = ITEM.match(lines[number])
        if found and found[1] in kinds and indent(lines[number]) <= indent(lines[at]) and end_of(lines, number) >= at:
            return number
    return None


def without_brackets(text):
    """A header without what stands between angle brackets."""
    text, count = text.replace("->", ""), 1
    while count:
        text, count = re.subn(r"<[^<>]*>", "", text)
    return text


def bracketed(text):
    """What stands in the angle brackets that a text begins with, and what follows them. The first is empty where it begins with no bracket."""
    depth = 0
    for at, letter in enumerate(text):
        depth += (letter == "<") - (letter == ">")
        if not depth:
            return text[1:at], text[at + 1 :] if at else text
    return "", text


def listed_types(text):
    """The types of a list with commas."""
    depth, types = 0, [""]
    for letter in text:
        depth += (letter in "<([") - (letter in ">)]")
        types[-1] += letter if letter != "," or depth else ""
        types += [""] * (letter == "," and not depth)
    return [it.strip() for it in types if it.strip()]


def name_of_type(text, parameters):
    """How the prover names a type within another name, as a pattern. A parameter has no name there."""
    if text in parameters:
        return ""
    if text.startswith("("):
        return f"Tuple{len(listed_types(text[1:-1]))}"
    name, rest = re.fullmatch(r"(\w*)(.*)", text).groups()
    if not name or bracketed(rest)[1]:
        return {"&": "Ref"}.get(text[0], "") + r"\w*"
    return name[0].upper() + name[1:]


def names_of_arguments(header):
    """How the prover names the arguments of the trait that an impl is of, as a pattern."""
    declared, rest = bracketed(header.strip().removeprefix("unsafe ").removeprefix("impl").replace("->", ""))
    parameters = [it.split(":")[0].strip().removeprefix("const ") for it in listed_types(declared)]
    arguments, _ = bracketed(re.sub(r"^\s*[\w:]+", "", rest))
    return "".join(name_of_type(it, parameters) for it in listed_types(arguments))


def head_at(lines, number):
    """The text from a line to the next one that a brace ends."""
    last = next(at for at in range(number, len(lines)) if lines[at].endswith("{"))
    return " ".join(lines[number : last + 1])


def owner_of(lines, number):
    """How the prover names the impl or the trait that begins at a line, as a pattern."""
    whole = head_at(lines, number)
    parts = re.split(r"\bwhere\b|\{", without_brackets(whole))[0].split(" for ")
    names = [re.findall(r"\w+", part) for part in parts]
    if "trait" in names[0]:
        return names[0][names[0].index("trait") + 1]
    # an impl of an alias has the names of its parameters behind it; one of a trait has the names of the type, of its arguments, of the trait and
    # of the trait's arguments in one; one of Drop has the name of the type alone
    if len(names) == 1 or names[0][-1] == "Drop":
        return rf"{names[-1][-1]}(?:\+\w+)*"
    named = rf"{names[1][-1]}\w*{names[0][-1]}{names_of_arguments(whole)}"
    return {"&": r"Ref\w*", "[": r"\w*", "(": r"\w*"}.get(parts[1].strip()[0], "") + named


def module_of(file):
    """The path of the module that a source file holds."""
    parts = file.removeprefix("src/").removesuffix(".rt").split("/")
    return "" if parts in (["lib"], ["main"]) else "".join(f"{part}::" for part in parts if part != "mod")


def function_at(crate, file, lines, at):
    """The function that a line stands in, or None."""
    first = item_around(lines, at, ("fn",))
    if first is None:
        return None
    name, holder = ITEM.match(lines[first])[2], item_around(lines, first, ("impl", "trait"))
    module, path, is_of_trait = rf"{crate}::{module_of(file)}", name, False
    if holder is not None:
        # the prover names a method by the module of its type, which may be another than that of its impl
        module, path = rf"{crate}::(?:\w+::)*?", f"{owner_of(lines, holder)}::{name}"
        is_of_trait = ITEM.match(lines[holder])[1] == "trait" or " for " in without_brackets(head_at(lines, holder)).split(" where ")[0]
    last = end_of(lines, first)
    while lines[first - 1].strip().startswith(("#[", "///")):
        first -= 1
    return Function(file, first + 1, last + 1, re.compile(rf"{module}(?:{path}|fn::{path}::\S+)"), name, holder, is_of_trait)


def pairs_of(text):
    """The file, the old and the new text of each pair of an edit."""
    file, old, pairs = None, None, []
    for line in text.splitlines():
        if line.startswith("file: "):
            file = line.removeprefix("file: ").strip()
        elif line.startswith("old: "):
            old = line.removeprefix("old: ")
        elif line.startswith("new:"):
            if not file or not old:
                raise BadEdit("a line `new:` has no `file:` or no `old:` before it")
            pairs.append((file, old, line.removeprefix("new:").removeprefix(" ")))
            old = None
    if not pairs:
        raise BadEdit("it has no pair of lines `old:` and `new:`")
    return pairs


def read_edit(folder, name, text):
    """The edit of this text, of the crate in the folder."""
    texts = {}
    for file, old, new in pairs_of(text):
        if not file.startswith("src/") or not (folder / file).is_file():
            raise BadEdit(f"there is no source file {file}")
        before = texts.setdefault(file, (folder / file).read_text())
        if before.count(old) != 1:
            raise BadEdit(f"an `old:` text stands in {file} {before.count(old)} times, and not once")
        texts[file] = before.replace(old, new)
    lines, functions = {}, []
    for file, after in texts.items():
        before = (folder / file).read_text().split("\n")
        changed = {at: new for at, (old, new) in enumerate(zip(before, after.split("\n"))) if old != new}
        lines.update({(file, at): new for at, new in changed.items()})
        functions += [function_at(folder.name, file, before, at) for at in changed]
    known = list(dict.fromkeys(it for it in functions if it))
    # what stands in no function may change others: it is tried alone
    return Edit(name, lines, known, is_alone=not known or None in functions)


def edits_of(folder, parts):
    """The edits in these folders of a crate, and the names of those that can't be applied, each with why."""
    good, bad = [], {}
    for file in sorted(it for part in parts for it in (folder / part).glob("*.edit")):
        name = f"{folder.name}/{file.name}"
        try:
            good.append(read_edit(folder, name, file.read_text()))
        except BadEdit as error:
            bad[name] = str(error)
    return good, bad
