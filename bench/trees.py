#!/usr/bin/env python3
"""trees.py BENCHMARKS TREES [RUNS]: the hash tree beside the same in plain Rust, the least of RUNS runs in turn (five, if no
number is given).

    rustc --edition 2021 -O -o /tmp/trees bench/plain/trees.rs
    bench/trees.py crates/benchmarks/out/benchmarks /tmp/trees

The plain program says how long each part takes; ours is timed from outside, once on all processors and once on one. A
part of ours that reads a tree first builds one, so the time of one build, a twentieth of `builds`, is taken off.
bench/README.md has measured figures."""
import os
import re
import subprocess
import sys
import time

PARTS = ("inserts", "gets", "scans", "builds")
ONE = ("taskset", "-c", "0")


def elapsed(words):
    """Seconds of one run."""
    begun = time.monotonic()
    subprocess.run(words, stdout=subprocess.DEVNULL, check=True)
    return time.monotonic() - begun


def plain(words):
    """Seconds of each part of one run of the plain program."""
    shown = subprocess.run(words, stdout=subprocess.PIPE, text=True, check=True).stdout
    return {part: int(re.search(rf"^{part} .*: (\d+) ms", shown, re.M).group(1)) / 1000 for part in PARTS}


def least(old, new):
    """The lesser time of each part."""
    return {part: min(seconds, old.get(part, seconds)) for part, seconds in new.items()}


def without_build(seconds):
    """The times of the parts without the one build that gets and scans begin with."""
    build = seconds["builds"] / 20
    return {part: took - build if part in ("gets", "scans") else took for part, took in seconds.items()}


def main():
    ours, theirs = map(os.path.abspath, sys.argv[1:3])
    runs = int(sys.argv[3]) if len(sys.argv) > 3 else 5
    print(f"| what, the least of {runs} runs | version | elapsed | on one processor | in plain Rust | on one processor of it |")
    print("|---|---|---|---|---|---|")
    for version, words in (("one", ()), ("two", ("two",))):
        free, pinned, rust = {}, {}, {}
        for _ in range(runs):
            free = least(free, {part: elapsed((ours, part, *words)) for part in PARTS})
            pinned = least(pinned, {part: elapsed((*ONE, ours, part, *words)) for part in PARTS})
            rust = least(rust, plain((*ONE, theirs, *words)))
        free, pinned = without_build(free), without_build(pinned)
        for part in PARTS:
            seconds = " | ".join(f"{it[part]:.3f} s" for it in (free, pinned, rust))
            print(f"| {part} | {version} | {seconds} | {pinned[part] / rust[part]:.2f} |", flush=True)


main()
