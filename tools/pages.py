#!/usr/bin/env python3
"""Writes what the pages say of the sources, and checks it.

    tools/pages.py [--check]

It writes the parts of pages that follow from the sources:
- docs/PROMISES.md: the signature of each call, without the bounds that stand above the first section;
- docs/STATUS.md: the table of sizes;
- docs/ARCHITECTURE.md: the tables of crates, one for each kind, the lowest layer first;
- docs/NAMES.md: the types and traits of each crate;
- each block below a line that ends in 'the whole of `FILE`:'.

With --check it writes nothing, and ends by 1 where a part isn't what it would write. Either way it says so and ends by 1 where
- PROMISES.md names a call or a clause that isn't there, or doesn't name a public call of a crate or module that has a section there;
- an item of PROMISES.md doesn't say what its calls require and ensure: each named clause stands in the item, in the text above the items
  of its part, in the text above the sections, or in the item of a call that it refers to by "like `TYPE`"; a condition without a name
  wants the word "requires", and a call without a clause the words "no clause". An item that begins with "Inner:" only names its calls;
- a block below a line that ends in a file's name isn't part of that file;
- the section of EXAMPLE.md that explains a contract leaves out a clause of it, or explains another;
- a link leads to no file or heading.

A crate of which git tracks no file is a user's own: it is left out, and named on a line.
"""
import argparse
import collections
import dataclasses
import re
import sys

sys.dont_write_bytecode = True
from modules.crates import TOP, listed, untracked

DOCS = TOP / "docs"
PAGES = [TOP / "README.md", TOP / "CONTRIBUTING.md", TOP / "CHANGELOG.md", *sorted(DOCS.glob("*.md"))]


# The crates


def crates():
    """The crates of this repository in the order of crates.txt, each with the names of those that it stands on."""
    others = untracked()
    return [(name, below) for name, below in listed().items() if name not in others]


def folder_of(crate):
    return TOP / "crates" / crate


def files_below(crate, folder, ending):
    return sorted((folder_of(crate) / folder).rglob(f"*{ending}"))


# The calls


@dataclasses.dataclass
class Call:
    """A function of a crate, with the names of its clauses: an unnamed one is ''."""

    owner: str
    name: str
    public: bool
    signature: str
    requires: list
    ensures: list

    def shown(self, usual):
        """The signature without the bounds that are usual."""
        return without_bounds(self.signature.removeprefix("unsafe ").removeprefix("fn "), usual)


def parts_of(text):
    """The parts of a list that its commas part, but for those in brackets."""
    parts, depth = [""], 0
    for at, letter in enumerate(text):
        depth += (letter in "<([") - (letter in ")]" or (letter == ">" and text[at - 1] != "-"))
        if letter == "," and depth == 0:
            parts.append("")
        else:
            parts[-1] += letter
    return [part.strip() for part in parts if part.strip()]


def parameter_names(signature):
    """The names of the parameters of a signature."""
    rest = re.sub(r"^(unsafe )?fn \w+", "", signature)
    rest = without_parameters(rest) if rest.startswith("<") else rest
    ends = (at for at, letter in enumerate(rest) if letter == ")" and rest[: at + 1].count("(") == rest[: at + 1].count(")"))
    return [part.partition(":")[0] for part in parts_of(rest[1 : next(ends)])]


def without_bounds(signature, usual):
    """A signature whose type parameters have only the bounds that aren't usual."""
    name, rest = re.match(r"(\w+)(.*)", signature).groups()
    after = without_parameters(rest) if rest.startswith("<") else rest
    parameters = parts_of(rest[: len(rest) - len(after)].strip()[1:-1])
    named = [part.partition(":")[0] if part in usual else part for part in parameters]
    after, _, bounds = after.partition(" where ")
    bounds = [part for part in parts_of(bounds) if part not in usual]
    return name + (f"<{', '.join(named)}>" if named else "") + after + (f" where {', '.join(bounds)}" if bounds else "")


def shown(root):
    """The files of a library with the names that are public in each: None for all that are marked so."""
    names = {root: None}
    todo = [root]
    while todo:
        file = todo.pop()
        folder = file.parent if file.name == "lib.rt" else file.parent / file.stem
        text = file.read_text()
        for mark, module in re.findall(r"^(pub )?mod (\w+);", text, re.M):
            inner = folder / f"{module}.rt"
            used = re.findall(rf"^pub use (?:crate::)?(?:\w+::)*?{module}::(?:{{([^}}]*)}}|(\w+));", text, re.M)
            only = {name.strip() for some, one in used for name in (some or one).split(",")}
            names[inner] = None if mark and names[file] is None else only
            todo.append(inner)
    return names


def public_types(names):
    """The names of the types and traits that a crate's users can name."""
    types = set()
    for file, only in names.items():
        defined = set(re.findall(r"^pub (?:struct|enum|trait|type) (\w+)", file.read_text(), re.M))
        types |= defined if only is None else defined & only
    return types


def without_parameters(text):
    """What follows the parameters in angle brackets that a text begins with."""
    depth = 0
    for at, letter in enumerate(text):
        depth += (letter == "<") - (letter == ">" and text[at - 1] != "-")
        if depth == 0:
            return text[at + (letter == ">"):].strip()
    return text


def owner_of(head):
    """The type or trait whose methods a block with this head holds; of an impl of a trait the type."""
    kind, rest = re.match(r"(?:unsafe )?(?:pub )?(impl|trait)\b\s*(.*)", head).groups()
    rest = without_parameters(rest) if kind == "impl" and rest.startswith("<") else rest
    name = re.search(r" for (?:&(?:'\w+ )?(?:mut )?)?(?:\w+::)*(\w+)", rest) if kind == "impl" else None
    return (name or re.match(r"(?:\w+::)*(\w+)", rest)).group(1)


def is_of_trait(head):
    """Whether a block with this head is an impl of a trait."""
    kind, _, rest = head.removeprefix("unsafe ").partition("impl")
    return kind == "" and " for " in without_parameters(rest.strip())


def head_at(lines, at):
    """The head of the impl or trait that begins at a line, up to its brace."""
    parts = []
    for line in lines[at:]:
        parts.append(line.strip())
        if line.rstrip().endswith(("{", "{}")):
            break
    return " ".join(parts)


def signature_at(lines, at):
    """The signature that begins at a line, on one line, and the names of its clauses."""
    parts, clauses = [], {"requires": [], "ensures": []}
    for line in lines[at:]:
        stripped = line.strip()
        clause = re.match(r"(requires|ensures)\*?\s*(\w*)\s*\{", stripped)
        if clause:
            clauses[clause.group(1)].append(clause.group(2))
        elif not any(clauses.values()) and not stripped.startswith(("{", "ghost", "//")):
            parts.append(re.sub(r"\s*(\{|\{\}|;)$", "", stripped))
        begun = any(clauses.values())
        if stripped in ("{", "{}") or stripped.endswith(";") or (stripped.endswith(("{", "{}")) and not begun):
            break
    text = re.sub(r",? ([)>])(?!=)", r"\1", " ".join(parts))
    return re.sub(r"([(<]) ", r"\1", text).replace("pub ", "", 1), clauses


def calls_in(file, only, types):
    """The functions of a file that a crate's users can call, and those of std's traits."""
    lines = file.read_text().splitlines()
    head, ghosts = "", []
    for at, line in enumerate(lines):
        if re.match(r"(unsafe )?(impl|pub trait|trait)\b", line) or line.startswith("}"):
            head, ghosts = "" if line.startswith("}") else head_at(lines, at), []
            head = "" if head.endswith("{}") else head
        stripped = line.strip()
        if stripped.startswith("///"):
            continue
        ghost = re.match(r"ghost (\w+)\s*=", stripped)
        if ghost and is_of_trait(head):
            ghosts.append(ghost.group(1))
        call = re.match(r"(pub )?(unsafe )?fn (\w+)", stripped)
        if call:
            owner = owner_of(head) if head else ""
            of_trait = is_of_trait(head)
            free = not head and not line.startswith(" ") and (only is None or call.group(3) in only)
            public = bool(call.group(1) or head.startswith("pub trait")) and (free or owner in types) and not of_trait
            if public or (of_trait and owner in types):
                text, clauses = signature_at(lines, at)
                yield Call(owner, call.group(3), public, text, clauses["requires"], ghosts + clauses["ensures"])
            ghosts = []


def calls_of(section):
    """The calls of a library, or of a module below its root (`crate::module`), file by file."""
    crate, _, module = section.partition("::")
    root = folder_of(crate) / "src" / "lib.rt"
    if not root.exists():
        return []
    files = shown(root)
    types, inner = public_types(files), root.parent / module
    wanted = [file for file in sorted(files) if not module or inner in (file.with_suffix(""), *file.parents)]
    return [call for file in wanted for call in calls_in(file, files[file], types)]


# docs/PROMISES.md


ITEM = re.compile(r"- ((?:`[^`]+`(?:, )?)+):(.*)")
LIKE = re.compile(r"\blike (?:those of )?`([A-Z]\w*)(?:::(\w+))?`")
INNER = re.compile(r"- Inner: ((?:`[\w:]+`(?:, )?)+)")


def words_in(text):
    """The names that a text has between backticks."""
    return set(re.findall(r"`(\w+)`", text))


@dataclasses.dataclass
class Named:
    """A call that an item begins with, by its name there and its whole name, with the functions of this name and the clauses said of it."""

    name: str
    whole: str
    calls: list
    said: set = dataclasses.field(default_factory=set)

    def shape(self):
        """The names of the parameters."""
        return [parameter_names(call.signature) for call in self.calls if call.public]

    def ensured(self):
        """The names of the clauses that the call ensures."""
        return {name for call in self.calls if call.public for name in call.ensures if name}

    def heads(self, usual, like):
        """What the item begins with: signatures, or the name where another call has the same parameters."""
        signatures = [call.shown(usual) for call in self.calls if call.public]
        if not signatures or (like and like.shape() == self.shape()):
            return [f"`{self.name}`"]
        owner = self.name.rpartition("::")[0]
        return [f"`{owner}::{one}`" if owner else f"`{one}`" for one in signatures]

    def unsaid(self, text, above):
        """What a text and the text above it don't say of the call, where these clauses are said."""
        for call in (call for call in self.calls if call.public):
            for name in call.requires + call.ensures:
                if name and name not in self.said:
                    yield f"{self.whole} doesn't say clause {name}"
            if "" in call.requires and "require" not in text + above and not LIKE.search(text):
                yield f"{self.whole} doesn't say what it requires"
            if not call.requires + call.ensures and "no clause" not in text:
                yield f"{self.whole} doesn't say that it has no clause"


class Promises:
    """The page of the promises: its lines as they should be, and what is wrong with it."""

    def __init__(self, text):
        self.lines, self.faults = [], []
        self.usual = set(re.findall(r"`(\w+: [^`]+)`", text.partition("\n## ")[0]))
        self.calls, self.missing, self.crate, self.owner = {}, set(), "", ""
        self.item, self.begin, self.items = [], 0, {}
        self.level, self.above = "page", {"page": "", "section": "", "part": ""}
        for line in text.splitlines():
            self.take(line)
        self.end_section()

    def take(self, line):
        """Takes a line of the page."""
        if line.startswith(("- ", "#")) or not line:
            self.end_item()
        if line.startswith("## "):
            self.end_section()
            section = re.match(r"## .*\(`(\w+(?:::\w+)?)`\)$", line)
            self.begin_section(section.group(1) if section else "")
        elif line.startswith("### "):
            kind = re.match(r"### `(\w+)`", line)
            self.owner = kind.group(1) if kind else ""
            self.level, self.above["part"] = "part", ""
        item, inner = (ITEM.match(line), INNER.match(line)) if self.crate else (None, None)
        if item:
            self.begin = len(self.lines)
            self.item = [self.named(text) for text in re.findall(r"`((?:\w+::)?\w+)[^`]*`", item.group(1))]
        elif inner:
            for name in re.findall(r"`([\w:]+)`", inner.group(1)):
                self.named(name)
        elif self.item and line.startswith("  - `"):
            self.check_clauses(line)
        elif not self.item:
            self.above[self.level] += line + "\n"
        self.lines.append(line)

    def begin_section(self, crate):
        """A section of the calls of a crate or module begins, or another one, which has no crate."""
        self.crate, self.calls, self.owner = crate, collections.defaultdict(list), ""
        self.level, self.above["section"], self.above["part"] = "section", "", ""
        for call in calls_of(crate) if crate else []:
            self.calls[call.owner, call.name].append(call)
        self.missing = {key for key, some in self.calls.items() if any(call.public for call in some)}

    def end_section(self):
        """A section of the calls of a crate or module ends: each of them has been named."""
        self.end_item()
        for owner, name in sorted(self.missing):
            self.faults.append(f"{self.crate}: no line for {owner}::{name}")
        self.missing = set()

    def named(self, name):
        """The call of this name, which may begin with its type's."""
        owner, _, call = name.rpartition("::")
        owner = owner or self.owner
        keys = [key for key in ((owner, call), ("", call)) if key in self.calls]
        if keys:
            self.missing.discard(keys[0])
        else:
            self.faults.append(f"{self.crate}: no call {owner}::{call}")
        return Named(name, f"{owner}::{call}", self.calls[keys[0]] if keys else [])

    def end_item(self):
        """An item ends: its signatures are written, and each clause of its calls has been named."""
        text, above = "\n".join(self.lines[self.begin:]), self.above["section"] + self.above["part"]
        heads = []
        for named in self.item:
            others = LIKE.findall(text)
            like = [self.items.get(f"{owner}::{call or named.whole.rpartition('::')[2]}") for owner, call in others]
            if others and not any(like):
                self.faults.append(f"{self.crate}: {named.whole} is like a call that has no item above")
            named.said = words_in(text + above + self.above["page"]).union(*(one.said for one in like if one))
            lacking = {name for one in like if one for name in one.ensured() - named.ensured()} - words_in(text)
            self.faults += [f"{self.crate}: {named.whole} has no clause {name}, which the one that it is like has" for name in sorted(lacking)]
            self.faults += [f"{self.crate}: {fault}" for fault in named.unsaid(text, above)]
            heads += named.heads(self.usual, next((one for one, (_, call) in zip(like, others) if one and not call), None))
        if heads:
            rest = ITEM.match(self.lines[self.begin]).group(2)
            self.lines[self.begin] = f"- {', '.join(heads)}:{rest}"
        self.items |= {named.whole: named for named in self.item}
        self.item = []

    def check_clauses(self, line):
        """The clauses that a line below an item begins with are those of its calls."""
        known = {name for named in self.item for call in named.calls for name in call.requires + call.ensures}
        for name in words_in(line.partition(":")[0]) - known:
            self.faults.append(f"{self.crate}: no clause {name} of {self.item[0].whole}")

    def text(self):
        return "\n".join(self.lines) + "\n"


# The tables of docs/STATUS.md and docs/ARCHITECTURE.md


def lines_in(files):
    return sum(len(file.read_text().splitlines()) for file in files)


def size_of(crate):
    """How large a crate is: lines of code, of definitions and of proofs, edits and tests."""
    code = files_below(crate, "src", ".rt")
    edits = files_below(crate, "must-fail", ".edit") + files_below(crate, "edits", ".edit")
    tests = sum(len(re.findall(r"^\s*#\[test\]", file.read_text(), re.M)) for file in code)
    specs, proofs = files_below(crate, "specs", ".antt"), files_below(crate, "proofs", ".antt")
    return lines_in(code), lines_in(specs), lines_in(proofs), len(edits), tests


def group_of(crate, definitions):
    """The group whose crates share a row, or nothing for a crate with a row of its own."""
    if crate.startswith("test_"):
        return "tests"
    if crate.startswith("testkit"):
        return "testkits"
    if crate.startswith("tool_") and definitions:
        return "tools"
    return "" if definitions else "without definitions"


def sizes():
    """The sizes of each library with definitions, and the sums of the tools, the testkits, the tests and the crates without definitions."""
    rows = ["| Crate | Code | Definitions | Proofs | Edits | Tests |", "|---|---|---|---|---|---|"]
    groups = collections.defaultdict(list)
    for crate, _ in crates():
        size = size_of(crate)
        if group := group_of(crate, size[1]):
            groups[group].append(size)
        else:
            rows.append(f"| `{crate}` | {' | '.join(map(str, size))} |")
    for group, all_of in groups.items():
        rows.append(f"| {group} ({len(all_of)} crates) | {' | '.join(str(sum(column)) for column in zip(*all_of))} |")
    return "\n".join(rows)


def said_of(file):
    """The first sentence of what a file of code says of itself, or nothing."""
    docs = [line[3:].strip() for line in file.read_text().splitlines() if line.startswith("//!")]
    return re.split(r"(?<=\.) (?=[A-Z])", " ".join(docs).partition("  ")[0], maxsplit=1)[0].rstrip(".")


def docs_of(crate):
    """The first sentence of what a crate says of itself."""
    return said_of(next(file for name in ("lib.rt", "main.rt") if (file := folder_of(crate) / "src" / name).exists()))


# the kinds of crates, by the first words of their names; every other crate is a library
KINDS = {
    "Programs and what they run": ("tablerun", "tool"),
    "Examples": ("demo",),
    "Tests": ("test",),
    "What tests share": ("testkit",),
}
LIBRARIES = "Tables, sets and other libraries"


def kind_of(crate):
    """The kind of a crate."""
    return next((kind for kind, words in KINDS.items() if crate.partition("_")[0] in words), LIBRARIES)


def layers():
    """The layer of each crate: one above the highest crate of this repository that it stands on."""
    found = {}
    for crate, below in crates():
        found[crate] = 1 + max((found[name] for name in below if name in found), default=0)
    return found


def crate_tables():
    """What the crates of each kind are, the lowest layer first."""
    found, tables = layers(), []
    for kind in (LIBRARIES, *KINDS):
        rows = [f"### {kind}\n", "| Layer | Crate | What it is |", "|---|---|---|"]
        for crate in sorted((crate for crate in found if kind_of(crate) == kind), key=found.get):
            rows.append(f"| {found[crate]} | `{crate}` | {docs_of(crate)} |")
        tables.append("\n".join(rows))
    return "\n\n".join(tables)


# a type, a trait or an alias that begins at the margin, so outside an impl
DECLARED = re.compile(r"^(?:pub(?:\([^)]*\))? )?(?:unsafe )?(?:struct|enum|trait|type) (\w+)", re.M)
# a name that more crates have, tests aside, says nothing of where it is from
NAMED_AT_MOST = 3


def declared_in(crate):
    """The names of the types and traits that a crate declares."""
    return {name for file in files_below(crate, "src", ".rt") for name in DECLARED.findall(file.read_text())}


def names():
    """The types and traits of each crate that declares any, the lowest crate first."""
    declared = {crate: declared_in(crate) for crate, _ in crates()}
    counts = collections.Counter(name for crate, found in declared.items() if kind_of(crate) != "Tests" for name in found)
    rows = {crate: sorted(name for name in found if counts[name] <= NAMED_AT_MOST) for crate, found in declared.items()}
    return "\n".join(f"- `{crate}`: {', '.join(found)}" for crate, found in rows.items() if found)


# The pages


def with_parts(text, parts):
    """A page with each of its parts written anew, between the markers that name it."""
    for name, part in parts.items():
        begin, end = f"<!-- {name}: written by tools/pages.py -->", f"<!-- end of {name} -->"
        text = re.sub(f"{begin}.*?{end}", lambda _: f"{begin}\n\n{part}\n\n{end}", text, flags=re.S)
    return text


def with_quotes(text):
    """A page with each block written anew that stands below 'the whole of' a file."""
    def written(match):
        return match.group(1) + (TOP / match.group(2)).read_text() + match.group(3)
    return re.sub(r"([Tt]he\s+whole\s+of\s+`([\w/.-]+)`:\n\n```\w*\n).*?(```)", written, text, flags=re.S)


def written_pages():
    """Each page that the tool writes to, as it should be, and what is wrong with what is hand-written."""
    promises = Promises((DOCS / "PROMISES.md").read_text())
    parts = {"sizes": sizes(), "crates": crate_tables(), "names": names()}
    pages = {}
    for page in PAGES:
        text = promises.text() if page.name == "PROMISES.md" else page.read_text()
        pages[page] = with_quotes(with_parts(text, parts))
    return pages, [f"docs/PROMISES.md: {fault}" for fault in promises.faults]


def quote_faults(page, text):
    """The blocks of a page that aren't part of the file which is named right above."""
    for name, block in re.findall(r"`([\w/.-]+)`:\n\n```\w*\n(.*?)```", text, re.S):
        file = TOP / name
        if not file.exists() or block not in file.read_text():
            yield f"{page.relative_to(TOP)} quotes {name} as it isn't"


def clause_faults(page, text):
    """The clauses of the contract that the page of examples quotes and explains, where the one differs from the other."""
    if page.name != "EXAMPLE.md":
        return
    section = text.partition("\n## What a contract says\n")[2].partition("\n## ")[0]
    quoted = set(re.findall(r"^ *ensures (\w+)", section, re.M))
    explained = {name for line in re.findall(r"^- ((?:`\w+`(?:, )?)+):", section, re.M) for name in words_in(line)}
    for name in sorted(quoted ^ explained) or ([] if quoted else ["contract"]):
        yield f"{page.relative_to(TOP)}: {name} is quoted and not explained, or explained and not quoted"


def anchors(text):
    """The names by which links lead to the headings of a page."""
    return {re.sub(r"[^\w\- ]", "", head.lower()).replace(" ", "-") for head in re.findall(r"^#+ (.*)$", text, re.M)}


def link_faults(page, text):
    """The links of a page that lead to no file, or to no heading."""
    for link, anchor in re.findall(r"\]\(([^)#:]*)(?:#([^)]*))?\)", text):
        there = page.parent / link if link else page
        if not there.exists():
            yield f"{page.relative_to(TOP)} links to {link}, which isn't there"
        elif anchor and anchor not in anchors(text if there == page else there.read_text()):
            yield f"{page.relative_to(TOP)} links to {link}#{anchor}, which isn't there"


def main():
    parser = argparse.ArgumentParser(description=__doc__, formatter_class=argparse.RawDescriptionHelpFormatter)
    parser.add_argument("--check", action="store_true")
    asked = parser.parse_args()
    pages, faults = written_pages()
    if others := untracked():
        print(f"left out, since git tracks no file of them: {' '.join(others)}")
    for page, text in pages.items():
        faults += [*quote_faults(page, text), *clause_faults(page, text), *link_faults(page, text)]
        if asked.check:
            if text != page.read_text():
                faults.append(f"{page.relative_to(TOP)} is stale: run tools/pages.py")
        else:
            page.write_text(text)
    print(*faults, sep="\n", end="\n" if faults else "")
    return 1 if faults else 0


if __name__ == "__main__":
    sys.exit(main())
