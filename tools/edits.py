#!/usr/bin/env python3
"""Tries the edits that must fail: all edits of a crate together, in as few checks as they need.

    tools/edits.py [--all] [--built] [--control] [--witness] [--jobs N] [CRATE..]
    tools/edits.py --self-test

An edit is a file crates/NAME/edits/WHAT.edit: a line `file: src/x.rt`, then pairs of lines `old: TEXT` and `new: TEXT`, each TEXT one line
that stands once in the file. With --all those of crates/NAME/must-fail/, which `rt ci` tries one by one, are tried too. With no CRATE
every crate's are. N (1 unless said) is how many jobs a check has; several crates are tried side by side.

A copy of the crate is edited in each function that has an edit, and these functions are checked once. The others lose their bodies there,
and are what they promise: the crate is proved without the edits. An edit is refused where a goal of its own function fails. A second edit of
a function is tried on a twin of the function, under another name. Beside it stands an unedited twin, and the edit counts as refused only if
no goal of that one fails. A second edit waits for a later round if the function is a method of a trait or its proof is written whole. So does
an edit of several functions, and one whose function fails only because it calls one that isn't proved. Whatever a round leaves open is tried
alone, over all bodies, and judged then by the whole crate. An edit that is proved, or that the prover never judged, is told by name. The last
line is `N passed, M failed`: N edits were refused. The status is 0 only where M is 0.

With --witness each round that isn't one of an edit tried alone has a witness: a function of the crate that has no edit and keeps its body, one
with written answers if there is one. The round counts only if the witness is proved in it. So what refuses an edit is the edit, and not the
copy that it is tried in. Otherwise its edits are tried alone, in the crate as it was proved. A crate whose functions with clauses all have
edits has no witness, and has the last round of --control in its place.

With --built the libraries are those that `rt ci` has just proved and built of this very checkout, and nothing is proved but the copies.
Otherwise each crate is proved and built first, in its own folder, which keeps what is proved in out/, and its rounds begin with that.

With --self-test made edits of the crate `table_terms` are tried, some of which must be told.

With --control a last round of each crate has no edit: each function that was edited must be proved there, so that what refused an edit
is the edit. One whose functions aren't is told by name, and failed. An edit of what stands in no function has no such round.
"""
import argparse
import concurrent.futures
import dataclasses
import json
import os
import pathlib
import re
import resource
import shutil
import signal
import subprocess
import sys
import tempfile
import threading
import time

sys.dont_write_bytecode = True
from modules.bodies import bodies_in, empty, head_of
from modules.crates import TOP, below, listed, require_listed
from modules.edit_files import Edit, edits_of, pairs_of
from modules.twins import add_twin, can_have_twin

PARTS = ("src", "specs", "proofs")
# A line of a check that says what is wrong at a place, and one that says whether a function is proved.
PLACED = re.compile(r"(note: )?(?:\./)?((?:src|specs|proofs)/\S+?):(\d+):\d+: (.*)")
VERDICT = re.compile(r"fn (\S+): (.*)")
# An error that only follows from another one, and one by which a proof file names what isn't there.
FOLLOWS = re.compile(r"was not admitted|was rejected")
NAMES = re.compile(r"is not in scope|has no ")
# The verdict on a function whose own goals are proved, where those of others were left out.
KEEPS = re.compile(r"no holes|depends on a hole in .*")
# A source text that can't be read or typed. One that only makes a statement false reads well.
UNREAD = re.compile(r"error\[|error: (?!`)|error: `[^`]*`: .*(is not in scope|has no field|is no name|operand is missing|expected the end)")


@dataclasses.dataclass
class Told:
    """A line of a check about a place: a note or an error, the file and the line in it, and what is said."""

    line: str
    is_note: bool
    file: str
    at: int
    said: str

    def is_unread(self):
        return not self.is_note and self.file.startswith(("src/", "specs/")) and bool(UNREAD.match(self.said))

    def proves(self):
        """The function whose proof file it is, by its path in the crate."""
        return "::".join(self.file.split("/")[1:-1]) if self.file.startswith("proofs/") else None

    def is_of_another(self):
        """Whether a name is missing that isn't of the modules which the prover makes of the function itself."""
        return bool(NAMES.search(self.said)) and f".proofs.{self.proves().replace('::', '.')}." not in self.said


@dataclasses.dataclass
class Checked:
    """What a check said, and what it took."""

    lines: list
    seconds: float
    wall: float

    def __post_init__(self):
        self.told = [Told(it[0], bool(it[1]), it[2], int(it[3]), it[4]) for it in map(PLACED.match, self.lines) if it]
        self.verdicts = {it[1]: it[2] for it in map(VERDICT.fullmatch, self.lines) if it}

    def is_proved(self):
        return any(line.startswith("logic=proved ") for line in self.lines)

    def is_judged(self):
        return any(line.startswith(("logic=", "only=")) for line in self.lines)

    def names_of(self, edit):
        """The prover's names of the functions of an edit, and of their closures."""
        return [name for it in edit.functions for name in it.names_in(self.verdicts)]

    def goals_of(self, names):
        """The lines by which functions fail for themselves, and not only since another one isn't proved."""
        files = {name.partition("::")[2] for name in names}
        errors = [it for it in self.told if it.proves() in files and it.said.startswith("error:") and not FOLLOWS.search(it.said)]
        answers = [it.line for it in sorted(errors, key=lambda it: bool(NAMES.search(it.said))) if not it.is_of_another()]
        return [*answers, *(f"fn {name}: {self.verdicts[name]}" for name in names if "did not prove" in self.verdicts[name])]

    def keeps(self, edit):
        """Whether the functions of an edit are proved by what the others promise."""
        names = self.names_of(edit)
        return bool(names) and all(KEEPS.match(self.verdicts[name]) for name in names)

    def cost(self):
        return f"{self.seconds:.0f} CPU s, {self.wall:.0f} s"


# One check.

RUNNING = set()
STOPPED = threading.Event()


def stop(*_):
    """Ends the checks that run, and with them each lane, whose rooms go."""
    STOPPED.set()
    for ran in list(RUNNING):
        ran.terminate()
    sys.exit(1)


def check(folder, words):
    """Runs a check, or another command, in a crate's folder."""
    began = time.time()
    with tempfile.TemporaryFile("w+", errors="replace") as said:
        ran = subprocess.Popen(words, cwd=folder, stdin=subprocess.DEVNULL, stdout=said, stderr=subprocess.STDOUT)
        RUNNING.add(ran)
        _, status, used = os.wait4(ran.pid, 0)
        RUNNING.discard(ran)
        ran.returncode = os.waitstatus_to_exitcode(status)
        if STOPPED.is_set():
            raise InterruptedError(f"stopped at {folder}")
        said.seek(0)
        return Checked(said.read().splitlines(), used.ru_utime + used.ru_stime, time.time() - began)


def rlib_of(top, crate):
    """Where the library of a crate lies once it is built."""
    return top / "crates" / crate / "out/rlib" / f"{crate}.rlib"


def functions_of(top, crate):
    """The prover's names of the functions of a crate that is built."""
    with open(rlib_of(top, crate) / "toolchain/mir.json") as file:
        return [name for name, _ in json.load(file) if "+" not in name.rpartition("::")[2] and "::fn::" not in name]


def words_of(top, crate, jobs):
    """The prover's own command for a crate, over the libraries that are built in this checkout."""
    kit = pathlib.Path(subprocess.run(["rt", "doc"], capture_output=True, text=True, check=True).stdout.strip()).parent
    lines = listed(top)
    named = ["std", *lines[crate]]
    libraries = {name: rlib_of(top, name) if name in lines else kit / "rlibs" / f"{name}.rlib" for name in named}
    inside = [kit / "rlibs", *(rlib_of(top, name).parent for name in sorted(below(lines, crate) - {crate}))]
    return [
        *(str(kit / "bin/rattle"), "check", "--crate-name", crate, "src/lib.rt"),
        *(word for name, library in libraries.items() for word in ("--extern", f"{name}={library}")),
        *(word for folder in inside for word in ("-L", f"dependency={folder}")),
        *("--antt-project", str(kit / "rattle/logic/antt-project.json"), "--logic-built", str(kit / "logic_built")),
        *("--links", f"{crate}=", "--jobs", str(jobs)),
    ]


def copy_of(top, crate, room):
    """Copies a crate, with what is kept of it, to a room of its own, and returns the crate's folder there."""
    folder = room / "crates" / crate
    for part in PARTS:
        if (top / "crates" / crate / part).is_dir():
            shutil.copytree(top / "crates" / crate / part, folder / part)
    kept = top / "crates" / crate / "out/incremental"
    if kept.is_dir():
        shutil.copytree(kept, room / "kept")
    return folder


def renew(source, folder, kept, edits, names):
    """Makes the crate's copy ready for a round: the sources with these edits alone, over what is proved of the crate. But for an edit that
    is tried alone only the functions with an edit have a body and a proof, of those that the prover names so. It returns the edits: one that is
    tried on a twin has the twin as its function."""
    for part in ("src", "proofs"):
        shutil.rmtree(folder / part, ignore_errors=True)
        if (source / part).is_dir():
            shutil.copytree(source / part, folder / part)
    if kept.is_dir():
        shutil.rmtree(folder / "out/incremental", ignore_errors=True)
        # a check puts new files in the place of old ones, and writes into none
        shutil.copytree(kept, folder / "out/incremental", copy_function=os.link)
    changed = {place: text for edit in edits if not edit.twin for place, text in edit.lines.items()}
    for file in {file for file, _ in changed}:
        lines = (folder / file).read_text().split("\n")
        (folder / file).write_text("\n".join(changed.get((file, at), line) for at, line in enumerate(lines)))
    if not edits[0].is_alone:
        empty(folder, [it for edit in edits for it in edit.functions], names)
    return [dataclasses.replace(edit, functions=[add_twin(source, folder, edit)]) if edit.twin else edit for edit in edits]


def asked_for(edits, functions):
    """The flags that ask for the functions of these edits, and none where an edit is tried alone: then the whole crate is judged."""
    names = dict.fromkeys(name for edit in edits for it in edit.functions for name in asked_of(it, edit.twin, functions))
    return [] if edits[0].is_alone else ["--allow-holes", *(word for name in names for word in ("--only", name))]


def asked_of(function, twin, functions):
    """The prover's names of a function, or those of its twin."""
    names = function.names_in(functions)
    return [re.sub(rf"(?<=::){function.name}$", twin, name) for name in names] if twin else names


def witness_of(folder, edits, functions):
    """An edit that changes nothing, of a function without an edit that calls none with one: the one with the shortest written answers, or else
    the shortest of those with an `ensures` and no answers. A proof that is written whole doesn't serve, since it may name what the others lose."""
    edited = {name for edit in edits for it in edit.functions for name in it.names_in(functions)}
    # what calls a function that has an edit isn't proved beside it
    calls = re.compile(r"\b(" + "|".join(sorted({name.rpartition("::")[2] for name in edited})) + r")\b(::<.*>)?\(")
    found = []
    for path in sorted(folder.glob("src/**/*.rt")):
        lines = path.read_text().split("\n")
        for function, opening, last in bodies_in(folder.name, str(path.relative_to(folder)), lines):
            names = function.names_in(functions)
            if not names or edited & set(names) or calls.search("\n".join(lines[opening + 1 : last])):
                continue
            proofs = [file for name in names for file in folder.joinpath("proofs", *name.split("::")[1:]).glob("*.antt")]
            if proofs and not any(file.name == "Proof.antt" for file in proofs):
                found.append((False, sum(file.stat().st_size for file in proofs), names[0], function))
            elif not proofs and "ensures" in head_of(lines, opening):
                found.append((True, last - opening, names[0], function))
    _, _, name, function = min(found, key=lambda it: it[:3], default=(False, 0, "", None))
    return Edit(f"the witness {name}", {}, [function], False) if function else None


# What a check says of an edit.


def is_inside(told, edit):
    """Whether a line of a check is about a place in a function of the edit."""
    return any(it.holds(told.file, told.at) for it in edit.functions)


def own_goal(checked, edit):
    """The first line by which a function of the edit fails for itself, and not only since another isn't proved, or None."""
    notes = [it.line for it in checked.told if it.is_note and is_inside(it, edit) and it.said.startswith("it is not proved")]
    return next(iter([*notes, *checked.goals_of(checked.names_of(edit))]), None)


def judge_alone(checked, edit):
    """Whether the prover refuses the crate with this edit alone, and what to say of it."""
    if checked.is_proved():
        return False, f"EDIT PROVED {edit.name}"
    unread = [it.line for it in checked.told if it.is_unread()]
    if unread or not checked.is_judged():
        why = [*unread, *(it for it in checked.lines if it.startswith(("rattle", "rt: "))), *checked.lines[-1:], "it said nothing"]
        return False, f"BAD EDIT {edit.name}: the prover did not judge it: {why[0][:300]}"
    told = [it.line for it in checked.told if it.is_note or it.said.startswith("error")]
    reasons = [own_goal(checked, edit), *told]
    verdicts = [checked.verdicts[name] for name in checked.names_of(edit)]
    # what has no proof, and names no goal that fails, wasn't judged
    unproved = [it for it in verdicts if it.startswith("no proof") and "did not prove" not in it]
    if unproved or not any(reasons):
        return False, f"BAD EDIT {edit.name}: no goal fails: {next(iter(unproved), checked.lines[-1])[:300]}"
    return True, f"refused: {edit.name}: {next(filter(None, reasons))[:300]}"


def judge_together(checked, edits, witnesses):
    """Those edits of a round that are surely refused, each with what to say. It marks those that are to be tried alone."""
    unread = [edit for edit in edits if any(it.is_unread() and is_inside(it, edit) for it in checked.told)]
    unedited = [it for it in witnesses if it.twin]
    own = {name for edit in [*edits, *unedited] for name in checked.names_of(edit)}
    # where a function fails that has no edit and is no twin, an edit reaches further than its own
    reached = checked.goals_of([name for name in checked.verdicts if name not in own])
    fails = [f"{it.name} isn't proved" for it in witnesses if not it.twin and not checked.keeps(it)]
    if unread or reached or fails or not checked.is_judged():
        why = [*reached, *fails, *checked.lines[-1:]][: 0 if unread else 1]
        print("".join(f"the round doesn't count: {line[:300]}\n" for line in why), end="")
        for edit in unread or edits:
            edit.is_alone = True
        return {}
    # where an unedited twin fails too, or isn't judged, an edit of the twin's function is in doubt
    doubtful = {it.twin_of() for it in unedited if own_goal(checked, it) or not checked.names_of(it)}
    reasons = {edit.name: None if edit.twin_of() in doubtful else own_goal(checked, edit) for edit in edits}
    for edit in edits:
        waits = any("it calls" in checked.verdicts[name] for name in checked.names_of(edit)) and any(reasons.values())
        edit.is_alone = not reasons[edit.name] and (edit.twin_of() in doubtful or not waits)
    where = {edit.name: " in a twin:" if edit.twin else "" for edit in edits}
    return {name: (True, f"refused: {name}:{where[name]} {reason[:300]}") for name, reason in reasons.items() if reason}


def judge_control(checked, edits):
    """The edits of which a function isn't proved in a round that has no edit."""
    verdicts = {edit.name: [checked.verdicts[name] for name in checked.names_of(edit)] for edit in edits if not checked.keeps(edit)}
    return {name: (False, f"NOT PROVED without {name}: {said}"[:300]) for name, said in verdicts.items()}


def one_round(edits, twins):
    """The edits of the next round. The first edit of each function and line is tried in place, and a further one on a twin, if `twins` names it.
    One that must be tried alone makes a round of its own, after the others."""
    first, *_ = ordered = sorted(edits, key=lambda it: it.is_alone)
    if first.is_alone:
        return [first]
    taken, chosen = set(), []
    for edit in ordered:
        places = {*edit.lines, *(it.named.pattern for it in edit.functions)}
        if not edit.is_alone and not places & taken:
            chosen.append(edit)
            taken |= places
        elif not edit.is_alone and edit.name in twins:
            chosen.append(edit.on_twin(len(chosen)))
    return chosen


def witnesses_of(edits, witness):
    """What stands beside the edits of a round: the witness, and an unedited twin of each function that has a twin."""
    if edits[0].is_alone:
        return []
    edited = {it.functions[0]: it for it in edits if it.twin}
    twins = [dataclasses.replace(it, name=f"the unedited twin of {it.functions[0].name}", lines={}) for it in edited.values()]
    return [*[witness] * (witness is not None), *(it.on_twin(len(edits) + at) for at, it in enumerate(twins))]


# The crates in turn.


def rounds_of(trial):
    """Tries the edits of a proved crate. It yields, of each round, the check, what it was of, and the edits that are settled."""
    top, crate, edits = trial.top, trial.crate, trial.edits
    source = top / "crates" / crate
    words, functions = words_of(top, crate, trial.jobs), functions_of(top, crate)
    # a crate that keeps no proofs keeps none here: to write them takes longer than a later round would gain
    if (source / "out/incremental").is_dir():
        words += ["--incremental", "out/incremental"]
    witness = witness_of(source, edits, functions) if trial.has_witness else None
    twins = {it.name for it in edits if can_have_twin(source, it)}
    has_control = trial.has_control or (trial.has_witness and witness is None)
    unedited = [dataclasses.replace(it, lines={}) for it in edits if has_control and not it.is_alone]
    with tempfile.TemporaryDirectory(prefix="edits-") as room:
        folder = copy_of(top, crate, pathlib.Path(room))

        def checked_with(tried):
            asked = asked_for(tried, functions)
            placed = renew(source, folder, pathlib.Path(room) / "kept", tried, functions)
            return check(folder, [*words, *asked]), placed

        while edits:
            tried = one_round(edits, twins)
            checked, placed = checked_with([*tried, *witnesses_of(tried, witness)])
            placed, witnesses = placed[: len(tried)], placed[len(tried) :]
            is_alone = tried[0].is_alone
            settled = {tried[0].name: judge_alone(checked, tried[0])} if is_alone else judge_together(checked, placed, witnesses)
            alone = {it.name for it in placed if it.is_alone}
            edits = [dataclasses.replace(it, is_alone=it.is_alone or it.name in alone) for it in edits if it.name not in settled]
            yield checked, f"{len(tried)} tried, {len(settled)} settled", settled
        if unedited:
            checked, _ = checked_with(unedited)
            unproved = judge_control(checked, unedited)
            yield checked, f"without {len(unedited)} edits, {len(unproved)} not proved", unproved


@dataclasses.dataclass
class Trial:
    """A crate with its edits, and what is known of each by its name: whether it is refused, with what is said of it."""

    top: pathlib.Path
    crate: str
    edits: list
    results: dict
    jobs: int
    has_control: bool
    has_witness: bool

    def prove(self):
        """Proves and builds the crate as it is, and those below it. Where it isn't proved no edit is tried."""
        whole = check(self.top / "crates" / self.crate, ["rt", "lib", "--jobs", str(self.jobs)])
        print(f"{self.crate}: the crate as it is: {whole.cost()}", flush=True)
        if not rlib_of(self.top, self.crate).is_dir():
            print("\n".join(whole.lines[-5:]))
            self.results |= {it.name: (False, f"NOT TRIED {it.name}: the crate isn't proved without it") for it in self.edits}
            self.edits = []

    def run(self):
        """Tries the edits, and says of each what became of it."""
        print("".join(f"{line}\n" for _, line in self.results.values()), end="", flush=True)
        total, rounds = Checked([], 0, 0), 0
        for checked, what, settled in rounds_of(self):
            rounds, total = rounds + 1, Checked([], total.seconds + checked.seconds, total.wall + checked.wall)
            self.results |= settled
            said = "".join(f"{line}\n" for _, line in settled.values())
            print(f"{said}{self.crate}: round {rounds}: {what}: {checked.cost()}", flush=True)
        print(f"{self.crate}: {len(self.edits)} edits in {rounds} rounds: {total.cost()}", flush=True)
        return self.results


def trial_of(top, crate, parts, jobs, has_control=False, has_witness=False):
    edits, bad = edits_of(top / "crates" / crate, parts)
    results = {name: (False, f"BAD EDIT {name}: {why}") for name, why in bad.items()}
    return Trial(top, crate, edits, results, jobs, has_control, has_witness)


def try_all(trials, is_built):
    """Tries the edits of crates, which come lowest first, and returns what became of each edit by its name."""
    if not is_built:
        for trial in trials:
            trial.prove()
    # several crates side by side, those with the most edits first
    with concurrent.futures.ThreadPoolExecutor(max_workers=len(os.sched_getaffinity(0))) as pool:
        found = list(pool.map(Trial.run, sorted(trials, key=lambda trial: len(trial.edits), reverse=True)))
    return {name: result for one in found for name, result in one.items()}


def made_edits(texts):
    """The first of four edits, twice; an edit of its function that changes nothing; and one each of the others that changes nothing, can't be
    typed, or doesn't apply."""
    pairs = [pairs_of(text)[0] for text in texts]
    form = "file: {}\nold: {}\nnew: {}\n".format
    return {
        "meant": texts[0],
        "meant_again": texts[0],
        "meant_same": form(pairs[0][0], pairs[0][1], f"/* the same */ {pairs[0][1]}"),
        "same": form(pairs[1][0], pairs[1][1], f"/* the same */ {pairs[1][1]}"),
        "untyped": form(pairs[2][0], pairs[2][1], f"{pairs[2][1]} + no_such_name"),
        "unapplied": form(pairs[3][0], f"no such text {pairs[3][1]}", pairs[3][1]),
    }


def self_test(jobs):
    """Tries made edits over a copy of the crate `table_terms`, and returns whether each is told as it must be."""
    # the first has a function with written answers, of which a twin can be made
    names = ("hash_number_folds_a_quarter_down", "bits_of_hash_are_the_lowest", "first_bucket_is_in_the_first_half", "next_bucket_runs_past_the_end")
    texts = [(TOP / f"crates/table_terms/edits/{name}.edit").read_text() for name in names]
    refused, proved, bad = "refused: ", "EDIT PROVED ", "BAD EDIT "
    on_twin = f"{refused}table_terms/meant_again.edit: in a twin: "
    wanted = {"meant": refused, "meant_again": on_twin, "meant_same": proved, "same": proved, "untyped": bad, "unapplied": bad}
    with tempfile.TemporaryDirectory(prefix="edits-") as room:
        top = pathlib.Path(room)
        shutil.copytree(TOP / "crates/table_terms", top / "crates/table_terms", ignore=shutil.ignore_patterns("*.edit"))
        (top / "crates.txt").write_text("table_terms:\n")
        (top / "crates/table_terms/edits").mkdir(exist_ok=True)
        for name, text in made_edits(texts).items():
            (top / f"crates/table_terms/edits/{name}.edit").write_text(text)
        results = try_all([trial_of(top, "table_terms", ("edits",), jobs)], False)
    names = {name: results[f"table_terms/{name}.edit"] for name in wanted}
    wrong = [it for it, (is_refused, line) in names.items() if not line.startswith(wanted[it]) or is_refused != line.startswith(refused)]
    print(f"self-test FAILED: {' '.join(wrong)}" if wrong else "self-test ok", flush=True)
    return not wrong


def main():
    parser = argparse.ArgumentParser(description=__doc__, formatter_class=argparse.RawDescriptionHelpFormatter)
    parser.add_argument("crates", nargs="*", metavar="CRATE")
    parser.add_argument("--all", action="store_true")
    parser.add_argument("--built", action="store_true")
    parser.add_argument("--control", action="store_true")
    parser.add_argument("--witness", action="store_true")
    parser.add_argument("--jobs", type=int, default=1)
    parser.add_argument("--self-test", action="store_true")
    given = parser.parse_args()
    signal.signal(signal.SIGTERM, stop)
    if given.self_test:
        return 0 if self_test(given.jobs) else 1
    require_listed(given.crates)
    parts = ["edits", *["must-fail"] * given.all]
    named = [crate for crate in listed(TOP) if not given.crates or crate in given.crates]
    having = [crate for crate in named if any(any((TOP / "crates" / crate / part).glob("*.edit")) for part in parts)]
    trials = [trial_of(TOP, crate, parts, given.jobs, given.control, given.witness) for crate in having]
    results = try_all(trials, given.built)
    passed = sum(is_refused for is_refused, _ in results.values())
    spent = resource.getrusage(resource.RUSAGE_CHILDREN)
    print(f"edits: {(spent.ru_utime + spent.ru_stime) / 60:.1f} CPU minutes")
    print(f"{passed} passed, {len(results) - passed} failed")
    return 0 if passed == len(results) else 1


if __name__ == "__main__":
    sys.exit(main())
