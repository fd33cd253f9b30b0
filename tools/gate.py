#!/usr/bin/env python3
"""Runs the gate, `.ci/run`, and says how many CPU minutes each crate's proof, tests and edits took.

    tools/gate.py [LOG]

The gate's own lines go to LOG (default: gate.log). Linux only: a crate's minutes are read off /proc, twice a second, and are those of
the prover alone. The last line has all that the gate took, linkers and tests too.
"""
import argparse
import collections
import os
import resource
import subprocess
import sys
import time

TICKS = os.sysconf("SC_CLK_TCK")
GATE = os.path.join(os.path.dirname(os.path.abspath(__file__)), "..", ".ci", "run")
KINDS = ("proof", "tests", "edits", "kept", "programs")


def kind_of(words, folder):
    """What a run of the prover is for: `kept` is what `tools/edits.py` has proved before it tries the edits of a crate."""
    if os.path.basename(folder).startswith("rt-edit-") or "/edits-" in folder:
        return "edits"
    if "--incremental" in words:
        return "kept"
    if "--test" in words:
        return "tests"
    return "programs" if "--backend" in words else "proof"


def look(seen):
    """Notes the CPU seconds so far of each prover that is running."""
    for pid in filter(str.isdigit, os.listdir("/proc")):
        try:
            with open(f"/proc/{pid}/cmdline", "rb") as file:
                words = file.read().decode(errors="replace").split("\0")
            if os.path.basename(words[0]) != "rattle" or "--crate-name" not in words:
                continue
            with open(f"/proc/{pid}/stat") as file:
                fields = file.read().rpartition(")")[2].split()
            kind = kind_of(words, os.readlink(f"/proc/{pid}/cwd"))
        except OSError:
            continue
        crate = words[words.index("--crate-name") + 1]
        # its own time, and that of the children that it has waited for
        seen[pid, fields[19]] = (crate, kind, sum(map(int, fields[11:15])) / TICKS)


def main():
    parser = argparse.ArgumentParser(description=__doc__, formatter_class=argparse.RawDescriptionHelpFormatter)
    parser.add_argument("log", nargs="?", default="gate.log", metavar="LOG")
    asked = parser.parse_args()
    seen, began = {}, time.time()
    with open(asked.log, "w") as out:
        gate = subprocess.Popen([GATE], stdin=subprocess.DEVNULL, stdout=out, stderr=subprocess.STDOUT)
        while gate.poll() is None:
            look(seen)
            time.sleep(0.5)
    sums = collections.defaultdict(float)
    for crate, kind, seconds in seen.values():
        sums[crate, kind] += seconds / 60
    crates = sorted({crate for crate, _ in sums})
    print("| Crate | " + " | ".join(KINDS) + " | all |\n|" + "---|" * (len(KINDS) + 2))
    for crate in crates:
        row = [sums[crate, kind] for kind in KINDS]
        print(f"| `{crate}` | " + " | ".join(f"{it:.1f}" for it in row) + f" | {sum(row):.1f} |")
    print("| all | " + " | ".join(f"{sum(sums[crate, kind] for crate in crates):.1f}" for kind in KINDS) + f" | {sum(sums.values()):.1f} |")
    used, minutes = resource.getrusage(resource.RUSAGE_CHILDREN), (time.time() - began) / 60
    print(f"all: {(used.ru_utime + used.ru_stime) / 60:.1f} CPU minutes in {minutes:.1f} minutes, status {gate.returncode}")
    return gate.returncode


if __name__ == "__main__":
    sys.exit(main())
