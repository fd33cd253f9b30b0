#!/usr/bin/env python3
"""Measures tables side by side.

    tools/speed.py all ROUNDS PROGRAM..     the tables at the top of docs/SPEED.md and their peers, by one thread to four, and with 10^4
                                            to 10^7 keys where a program knows those, into docs/speed/all.txt; 10^7 in the
                                            first round alone
    tools/speed.py run ROUNDS PROGRAM..     the others, and those held alone with a million keys, into docs/speed/raw.txt
    tools/speed.py more ROUNDS PROGRAM..    sets of 10^8 numbers by one thread, in the first round alone; sets of a million records of 24
                                            bytes; and interners of a million texts, and of 50,000 words in a million calls, by one
                                            thread and by four; into docs/speed/more.txt
    tools/speed.py show KIND BASE           prints the tables of a kind, with ratios to the table BASE: all (of all.txt, as dashmap);
                                            held, seats, core or interner (of raw.txt, as plain-rust, plain-atomics, core,
                                            plain-interner); large, records or texts (of more.txt, as dashmap-u64, records-dashmap,
                                            texts-dashmap)

`tools/plots.py` prints the table at the top of docs/SPEED.md and draws pictures, of what docs/speed/all.txt has.

A PROGRAM answers `PROGRAM list` with the names of its tables, one a line, and `PROGRAM NAME GROUP` with lines
`NAME MEASUREMENT NUMBER`; it may be several words in quotes, as "tool_checks bench". Each group runs in a process of its own; every
second round goes backwards. The best of all rounds counts. In brackets stand two ratios to BASE: of the best rounds, and of the
middle ones. A line that begins with # says the round and the load of the machine (the mean number of threads that ran or waited in the
last minute) before a table's groups. Run as root, each process takes precedence over others (nice -10).

Small tables are made and dropped in turn. Whether glibc gives a table's memory back each time, and takes it page by page again, hangs on
which block happens to lie last: with the same table it costs a fifth of an insert or nothing. So where tables are small each program
keeps what it frees, as one does that has once freed a large block.
"""
import argparse
import os
import pathlib
import shlex
import statistics
import subprocess
import sys

SPEED = pathlib.Path(__file__).resolve().parent.parent / "docs" / "speed"
THREADED = ["same", "ins", "hit"]
SIZES = ["1e4", "1e5", "1e7"]
LARGE = ("1e7", "1e8")
LARGE_ROUNDS = 1
SMALL = ("1e4", "1e5")
KEEPS = {"MALLOC_MMAP_THRESHOLD_": str(32 << 20), "MALLOC_TRIM_THRESHOLD_": str(64 << 20)}
# The groups of each table in `all`: those that its program knows.
GROUPS_OF_ALL = {name: ["one", "seq", "step", *SIZES] for name in ("held", "held-in-place", "held-set", "held-shards", "std-HashSet")}
SHARED = ["shared", "shared-in-place", "shared-set", "shared-shards"]
GROUPS_OF_ALL |= {name: ["one", "seq", "step", *THREADED, *SIZES] for name in (*SHARED, "plain-steps", "dashmap", "dashmap-u64", "rwlock-HashSet")}
GROUPS_OF_ALL |= {"original": ["one", "seq", *THREADED, *SIZES]}
GROUPS_OF_ALL |= {name: ["one", "seq", "same", "ins"] for name in ("model-direct", "tbb-unordered_set", "libcuckoo", "urcu-lfht-presized")}
# The kind of each table in `run`, and its groups.
KINDS = {"core": "core", "seats": "seats", "plain-atomics": "seats", "interner": "interner", "plain-interner": "interner"}
KINDS |= {name: "held" for name in ("held", "held-in-place", "held-set", "plain-rust", "std-HashSet", "dashmap")}
GROUPS = {"held": ["one", "seq", "step"], "seats": ["one", "seq", "same", "ins"], "core": ["one"], "interner": ["1e4", "1e5", "1e6"]}
# The kind of each table in `more`, and its groups. A set of string_cache has 4,096 buckets for good: it is too slow with a million texts.
KINDS_OF_MORE = {name: "large" for name in ("shared-set", "dashmap-u64", "std-HashSet-u64")}
KINDS_OF_MORE |= {f"records-{name}": "records" for name in ("shared-set", "dashmap", "rwlock", "std-HashSet")}
KINDS_OF_MORE |= {f"texts-{name}": "texts" for name in ("shared-interner", "dashmap", "two-dashmaps", "rwlock", "string-cache")}
GROUPS_OF_MORE = {"large": ["1e8"], "records": ["one", "ins", "hit"], "texts": ["txt", "txt4", "words"]}
FEWER_OF_MORE = {"records-std-HashSet": ["one"], "texts-string-cache": ["words"]}
ONE_THREAD = ["a_ins1", "b_hit1", "c_miss1", "seq_ins1", "seq_hit1", "step_ins1", "step_hit1", "g_rss"]
TEAMS = [f"{work}{count}" for work in ("d_same", "e_ins", "f_hit") for count in (1, 2, 3, 4)]
MEASUREMENTS = {
    "held": ONE_THREAD,
    "all": [*ONE_THREAD, *TEAMS, *(f"{work}_{size}" for size in SIZES for work in ("ins", "hit", "miss"))],
    "seats": ["a_ins1", "b_hit1", "c_miss1", "d_same4", "e_ins4", "f_hit4", "seq_ins1", "seq_hit1"],
    "core": ["event"],
    "interner": [f"{work}_{size}" for size in ("1e4", "1e5", "1e6") for work in ("new", "known", "back")],
    "large": ["ins_1e8", "hit_1e8", "miss_1e8", "rss_1e8"],
    "records": ["a_ins1", "b_hit1", "c_miss1", "e_ins4", "f_hit4", "g_rss"],
    "texts": [*(f"{work}{count}" for count in (1, 4) for work in ("t_new", "t_known", "t_back", "w_name")), "t_rss1", "t_rss4"],
}


def file_of(kind):
    """The file of a command, or of what a kind's tables were measured by."""
    return SPEED / f"{kind if kind in ('all', 'more') else 'more' if kind in GROUPS_OF_MORE else 'raw'}.txt"


def kind_of(name, file):
    """The kind of a table among those of a file. None: it has no such table."""
    if file == "all":
        return "all" if name in GROUPS_OF_ALL else None
    return (KINDS_OF_MORE if file == "more" else KINDS).get(name)


def groups_of(name, kind):
    """The groups of a table of this kind."""
    if kind == "all":
        return GROUPS_OF_ALL[name]
    return FEWER_OF_MORE.get(name) or (GROUPS | GROUPS_OF_MORE)[kind]


def come_first():
    """Lets this process and those that it starts take precedence, where that is allowed."""
    try:
        os.nice(-10)
    except PermissionError:
        print("not root: other processes on the machine count as much as these", file=sys.stderr)


def lines_of(program, *words):
    keeps = KEEPS if words[-1] in SMALL else {}
    done = subprocess.run([*shlex.split(program), *words], capture_output=True, text=True, timeout=600, check=True, env=os.environ | keeps)
    return done.stdout.splitlines()


def tables_of(programs, file):
    """Each program's tables that are measured into the file, with their groups and measurements."""
    for program in programs:
        for name in lines_of(program, "list"):
            if kind := kind_of(name, file):
                yield program, name, groups_of(name, kind), MEASUREMENTS[kind]


def run(rounds, programs, command):
    come_first()
    final = file_of(command)
    tables = list(tables_of(programs, final.stem))
    SPEED.mkdir(exist_ok=True)
    new = final.with_suffix(".new")
    with open(new, "w", encoding="ascii") as raw:
        for number in range(1, rounds + 1):
            for program, name, groups, measurements in tables if number % 2 else reversed(tables):
                print(f"# round {number} load {os.getloadavg()[0]:.1f} {name}", file=raw)
                for group in groups:
                    if group in LARGE and number > LARGE_ROUNDS:
                        continue
                    for line in lines_of(program, name, group):
                        if line.split()[1] in measurements:
                            print(line, file=raw, flush=True)
            print(f"round {number} of {rounds}, load {os.getloadavg()[0]:.1f}", file=sys.stderr)
    new.replace(final)


def numbers_of(kind):
    """The numbers of all rounds, by table and measurement."""
    found = {}
    for line in file_of(kind).read_text(encoding="ascii").splitlines():
        if line.startswith("#"):
            continue
        name, measurement, number = line.split()
        if kind == kind_of(name, file_of(kind).stem):
            found.setdefault(name, {}).setdefault(measurement, []).append(float(number))
    return found


def ratios(numbers, base):
    return [least(numbers) / least(base) for least in (min, statistics.median)]


def cell(numbers, base):
    if not numbers:
        return ""
    digits = 0 if min(numbers) >= 30 else 1
    beside = f" ({', '.join(f'{ratio:.2f}' for ratio in ratios(numbers, base))})" if base else ""
    return f"{min(numbers):.{digits}f}{beside}"


def table(found, kind, base_name):
    rows = ["| table | " + " | ".join(MEASUREMENTS[kind]) + " |", "|---" * (len(MEASUREMENTS[kind]) + 1) + "|"]
    base = found.get(base_name, {})
    for name, numbers in found.items():
        cells = [cell(numbers.get(m), base.get(m)) for m in MEASUREMENTS[kind]]
        rows.append(f"| {name} | " + " | ".join(cells) + " |")
    return "\n".join(rows)


def main():
    parser = argparse.ArgumentParser(description=__doc__, formatter_class=argparse.RawDescriptionHelpFormatter)
    commands = parser.add_subparsers(dest="command", required=True, metavar="all|run|more|show")
    for name in ("all", "run", "more"):
        command = commands.add_parser(name)
        command.add_argument("rounds", type=int, metavar="ROUNDS")
        command.add_argument("programs", nargs="+", metavar="PROGRAM")
    command = commands.add_parser("show")
    command.add_argument("kind", choices=MEASUREMENTS)
    command.add_argument("base", metavar="BASE")
    asked = parser.parse_args()
    if asked.command == "show":
        print(table(numbers_of(asked.kind), asked.kind, asked.base))
    else:
        run(asked.rounds, asked.programs, asked.command)


if __name__ == "__main__":
    main()
