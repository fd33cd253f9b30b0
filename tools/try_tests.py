#!/usr/bin/env python3
"""Runs all tests before any proof.

    tools/try_tests.py [--jobs N] [--seconds N] [CRATE..]

It proves nothing; `rt ci` runs the same tests of proved code. The tests of a crate are built as one program, as `rt try --test` builds
them but for two things: clang optimizes (-O1), and accesses to memory aren't watched. All checks stay: a test fails where an index is out
of bounds, a sum overflows, a cast loses bits, a divisor is zero, or an `unwrap` finds nothing. The program is kept in out/tests/, and
built again only once the sources or the kit change.

--jobs crates are tried side by side (as many as there are processors). A test may take --seconds (60). Each crate gets a line, and each
test that failed another. The last line is 'N passed, M failed'; a crate that can't be built counts as one failure. The status is 1 where
M isn't 0.
"""
import argparse
import concurrent.futures
import dataclasses
import hashlib
import os
import pathlib
import re
import resource
import shutil
import subprocess
import sys
import tempfile
import time

sys.dont_write_bytecode = True
from modules.crates import TOP, below, listed, require_listed
from modules.kit import installed, stand_in

BUILT = TOP / "out/tests"
# The clang of the kit, optimizing in place of watching memory, and its linker, which keeps the program and ends the build.
CLANG = """for word; do
    shift
    case $word in -O0) set -- "$@" -O1 ;; -fsanitize=address) ;; *) set -- "$@" "$word" ;; esac
done
exec {kit}/toolchain/bin/clang "$@"
"""
LINKER = """{kit}/toolchain/bin/ld.lld "$@" && /usr/bin/mv program "$(/usr/bin/dirname "$0")/../../program"
exit 1
"""
# `rt` lets the prover look for names that a check refuses, and shows what it says as a hint.
PROVER = "exit 0"
# A check that fails is an instruction that isn't one.
CHECK_FAILED = "AddressSanitizer: ILL"


def sources_of(crate):
    return sorted((TOP / "crates" / crate / "src").rglob("*.rt"))


def has_tests(crate):
    return any(re.search(r"^\s*#\[test\]", file.read_text(), re.M) for file in sources_of(crate))


def sources_below(crate):
    """The sources of a crate and of those below it."""
    return [file for name in sorted(below(listed(), crate)) for file in sources_of(name)]


def sum_of(crate, kit):
    """The checksum of all that the program of a crate's tests is made of."""
    found = hashlib.sha256((CLANG + LINKER + repr(listed()[crate]) + (kit / "KIT-ID").read_text()).encode())
    for file in sources_below(crate):
        found.update(f"{file.relative_to(TOP)}\0".encode() + file.read_bytes() + b"\0")
    return found.hexdigest()


@dataclasses.dataclass
class Tried:
    """What became of a crate's tests: how many passed, what is to be said of each that failed, and how long it took."""

    crate: str
    passed: int
    failed: list
    seconds: float

    def told(self):
        lines = [f"{self.crate}: {self.passed} passed, {len(self.failed)} failed, {self.seconds:.0f} s", *self.failed]
        return "\n".join(lines).replace("\n", "\n    ")


def build(crate, kit, program):
    """Builds the program of a crate's tests. It returns what was said where that failed."""
    with tempfile.TemporaryDirectory(prefix="try-tests-") as room:
        folder = pathlib.Path(room) / "kit"
        scripts = {"toolchain/bin/clang": CLANG, "toolchain/bin/ld.lld": LINKER, "bin/rattle": PROVER}
        rt = stand_in(folder, {path: text.format(kit=kit) for path, text in scripts.items()})
        words = [sys.executable, rt, "try", "--test"]
        run = subprocess.run(words, cwd=TOP / "crates" / crate, stdin=subprocess.DEVNULL, capture_output=True, text=True)
        if not (folder / "program").exists():
            return "its tests weren't built:\n" + "\n".join((run.stdout + run.stderr).splitlines()[-5:])
        program.parent.mkdir(parents=True, exist_ok=True)
        shutil.move(folder / "program", program)
        return None


def run_test(command, test, seconds):
    """Runs one test in a process of its own. It returns what is to be said of it where it fails."""
    try:
        run = subprocess.run([*command, test], stdin=subprocess.DEVNULL, capture_output=True, text=True, errors="replace", timeout=seconds)
    except subprocess.TimeoutExpired:
        return f"{test}: not done after {seconds} s"
    if run.returncode == 0 and "test result: ok" in run.stdout:
        return None
    if CHECK_FAILED in run.stderr:
        return f"{test}: a check failed; `rt try --test` in its crate says which, and where"
    return f"{test}: " + "\n".join([*run.stderr.splitlines(), *run.stdout.split("\n")][:6]).strip()


def try_crate(crate, kit, seconds):
    """Builds a crate's tests where that is needed, and runs them."""
    began, program, key = time.time(), BUILT / crate, sum_of(crate, kit)
    kept = program.with_suffix(".sum")
    if not kept.exists() or kept.read_text() != key:
        said = build(crate, kit, program)
        if said:
            return Tried(crate, 0, [said], time.time() - began)
        kept.write_text(key)
    libraries = kit / "toolchain/lib"
    command = [libraries / "ld-linux-x86-64.so.2", "--inhibit-cache", "--library-path", libraries, program]
    lines = subprocess.run([*command, "--list"], capture_output=True, text=True, check=True).stdout.splitlines()
    told = [run_test(command, line.removesuffix(": test"), seconds) for line in lines if line.endswith(": test")]
    failed = [said for said in told if said]
    return Tried(crate, len(told) - len(failed), failed, time.time() - began)


def main():
    parser = argparse.ArgumentParser(description=__doc__, formatter_class=argparse.RawDescriptionHelpFormatter)
    parser.add_argument("--jobs", type=int, default=len(os.sched_getaffinity(0)))
    parser.add_argument("--seconds", type=int, default=60)
    parser.add_argument("crates", nargs="*", metavar="CRATE")
    asked = parser.parse_args()
    require_listed(asked.crates)
    began, kit, passed, failed = time.time(), installed(), 0, 0
    crates = asked.crates or [crate for crate in listed() if has_tests(crate)]
    # those that take longest to build first
    crates.sort(key=lambda crate: -sum(file.stat().st_size for file in sources_below(crate)))
    with concurrent.futures.ThreadPoolExecutor(asked.jobs) as pool:
        for done in concurrent.futures.as_completed([pool.submit(try_crate, crate, kit, asked.seconds) for crate in crates]):
            tried = done.result()
            print(tried.told(), flush=True)
            passed, failed = passed + tried.passed, failed + len(tried.failed)
    used = resource.getrusage(resource.RUSAGE_CHILDREN)
    print(f"in {(time.time() - began) / 60:.1f} minutes, {(used.ru_utime + used.ru_stime) / 60:.1f} CPU minutes")
    print(f"{passed} passed, {failed} failed")
    return 1 if failed else 0


if __name__ == "__main__":
    sys.exit(main())
