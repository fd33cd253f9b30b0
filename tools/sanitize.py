#!/usr/bin/env python3
"""Runs each test of some crates under a tool that watches memory, or threads.

    tools/sanitize.py memory CRATE..     valgrind's memcheck, with its search for leaks
    tools/sanitize.py threads CRATE..    ThreadSanitizer

It watches what the compiler makes of the tests: they are built as `tools/unproved.py` builds a program, without checks. Each test runs in
a process of its own, --jobs of them side by side (4). Each that fails, or of which the tool says something, gets a line; the last line is
'N passed, M failed', and the status is 1 where M isn't 0. It needs Debian's valgrind or libclang-rt-14-dev. The kit's C code isn't compiled
for ThreadSanitizer, so accesses of its own are not seen.
"""
import argparse
import concurrent.futures
import pathlib
import re
import subprocess
import sys
import tempfile

sys.dont_write_bytecode = True
import unproved
from modules.crates import require_listed

MEMCHECK = ["valgrind", "-q", "--error-exitcode=9", "--leak-check=full"]
RUNTIMES = "llvm-*/lib/clang/*/lib/linux/libclang_rt.tsan-x86_64.a"
# What clang calls in place of the C library's, where the runtime doesn't have it.
COPIES = """
#include <string.h>
__attribute__((weak)) void *__tsan_memset(void *to, int byte, unsigned long count) { return memset(to, byte, count); }
__attribute__((weak)) void *__tsan_memcpy(void *to, const void *from, unsigned long count) { return memcpy(to, from, count); }
__attribute__((weak)) void *__tsan_memmove(void *to, const void *from, unsigned long count) { return memmove(to, from, count); }
"""


def build(crate, threads, work):
    """The program that runs one test of the crate, by its name."""
    words = unproved.called(crate, work, "--test")
    kit, plain = unproved.plain_module(crate, words, "lib.rt", work)
    program = work / "tests"
    if not threads:
        unproved.compiled(kit, plain, work / "made.o")
        unproved.linked(work / "made.o", words, program)
        return program
    plain.write_text(re.sub(r"^(attributes #\d+ = \{)", r"\1 sanitize_thread", plain.read_text(), flags=re.M))
    unproved.compiled(kit, plain, work / "made.o", "-fsanitize=thread", "-g")
    (work / "copies.c").write_text(COPIES)
    runtime = next(pathlib.Path("/usr/lib").glob(RUNTIMES), None) or sys.exit("no ThreadSanitizer: install libclang-rt-14-dev")
    whole = ["-Wl,--whole-archive", runtime, "-Wl,--no-whole-archive", "-lstdc++", "-ldl", "-lrt"]
    unproved.linked(work / "made.o", words, program, "-fno-builtin", work / "copies.c", *whole)
    return program


def watch(program, test, threads):
    """What is to be said of a test: nothing, or the first line of what the tool says and how the program ended."""
    run = subprocess.run([*([] if threads else MEMCHECK), program, test], capture_output=True, text=True, errors="replace")
    said = [line for line in (run.stdout + run.stderr).splitlines() if line.startswith("==") or "ThreadSanitizer" in line]
    return f"status {run.returncode}: {next(iter(said), 'nothing said')}" if said or run.returncode else ""


def main():
    parser = argparse.ArgumentParser(description=__doc__, formatter_class=argparse.RawDescriptionHelpFormatter)
    parser.add_argument("watched", choices=["memory", "threads"])
    parser.add_argument("crates", nargs="+")
    parser.add_argument("--jobs", type=int, default=4)
    asked = parser.parse_args()
    require_listed(asked.crates)
    passed = failed = 0
    for crate in asked.crates:
        with tempfile.TemporaryDirectory() as folder, concurrent.futures.ThreadPoolExecutor(asked.jobs) as pool:
            program = build(crate, asked.watched == "threads", pathlib.Path(folder))
            listed = subprocess.run([program, "--list"], capture_output=True, text=True, check=True).stdout
            tests = [line.removesuffix(": test") for line in listed.splitlines() if line.endswith(": test")]
            for test, said in zip(tests, pool.map(lambda test: watch(program, test, asked.watched == "threads"), tests)):
                if said:
                    print(f"{crate} {test}: {said}", flush=True)
                failed += bool(said)
                passed += not said
            print(f"{crate}: {len(tests)} tests", flush=True)
    print(f"{passed} passed, {failed} failed")
    return failed != 0


if __name__ == "__main__":
    sys.exit(main())
