#!/usr/bin/env python3
"""migrations.py [ENTRIES]: starts a peer on files whose tree has version one and so many entries, 20,000 if none are named,
and then again, when the tree has version two. Prints the elapsed and the processor time of both, the least of five runs:
the first start scans the tree, builds it anew, writes it and saves the fact, and the second one does none of this.

    bench/migrations.py 20000

Needs nothing but the built program. The files are in a folder for temporary files."""
import os
import subprocess
import sys
import tempfile
import time
from pathlib import Path

TOP = Path(__file__).resolve().parent.parent
sys.path.insert(0, str(TOP / "checks" / "hostile"))
from formats import (  # noqa: E402
    Object,
    build,
    entry_of,
    opening_fact,
    read_log,
    read_saved_fact,
    read_slots,
    read_tree,
    spell_fact,
    spell_record,
    spell_slot,
)

PROGRAM = TOP / "crates" / "ensemble" / "out" / "ensemble"
WORDS = ["peer", "1", "1", "31000", "1", "1"]


def files(count):
    """The files of a peer alone with a tree of version one, and its entries."""
    objects = (Object((1, 1, number), (1, 1, number), number.to_bytes(8, "big"), bytes(100)) for number in range(count))
    entries = [entry_of(it) for it in objects]
    stored, top = build(entries, 1)
    nodes = b"".join(spell_record(digest, node) for digest, node in stored.items()) + spell_record(b"", top)
    return {"facts": spell_slot(1, spell_fact(opening_fact((1,), top))), "nodes": nodes, "objects": b""}, entries


def start(folder):
    """The seconds elapsed and of the processor in which a peer starts, makes one turn and ends."""
    began = time.monotonic()
    process = subprocess.Popen([PROGRAM, *WORDS], cwd=folder, stdout=subprocess.DEVNULL)
    _, status, used = os.wait4(process.pid, 0)
    if status != 0:
        sys.exit(f"the peer ended with {status}")
    return time.monotonic() - began, used.ru_utime + used.ru_stime


def main():
    count = int(sys.argv[1]) if len(sys.argv) > 1 else 20_000
    held, entries = files(count)
    first, second = [], []
    for _ in range(5):
        with tempfile.TemporaryDirectory() as folder:
            for name, data in held.items():
                (Path(folder) / name).write_bytes(data)
            first.append(start(folder))
            second.append(start(folder))
            nodes = read_log((Path(folder) / "nodes").read_bytes())[0]
            seal = read_saved_fact(read_slots((Path(folder) / "facts").read_bytes())[1]).seal
    if nodes[b""] != seal or sorted(read_tree(nodes, seal).values()) != sorted(entries):
        sys.exit("the tree did not migrate")
    for name, runs in ("a migration", first), ("a later start", second):
        elapsed, used = (min(run[part] for run in runs) for part in (0, 1))
        print(f"{name} of {count} entries: {elapsed:.3f} s, {used:.3f} s of the processor")


main()
