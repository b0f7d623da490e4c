#!/usr/bin/env python3
"""Runs each word on the largest inputs that it accepts, within two gibibytes of memory, and prints what each run takes.

    bench/sizes.py [NAME ..]

A name is that of a case below; without one all run. Printed are the status, the elapsed and the processor time, the most
memory that the process had, and the bytes of the input. Inputs are made in a folder for temporary files, of up to 900 MB.
"""
import hashlib
import os
import resource
import struct
import subprocess
import sys
import tempfile
import time
from pathlib import Path

TOP = Path(__file__).resolve().parent.parent
PROGRAM = TOP / "crates" / "ensemble" / "out" / "ensemble"
MOST_MEMORY = 2 << 30
MOST_LINES, MOST_BACKUP = 200_000, 268_435_456
ONE = "peers 1\nview 1\n"
NINE = "peers 9\nview 1 2 3 4 5 6 7 8 9\n"
KEY, VALUE = 64, 1024


def key(number):
    """A key of the greatest length, one for each number."""
    return f"{number:0{2 * KEY}x}"


def overwrites(head, count, keys, between=""):
    """Writes of values of the greatest length, at peer 1 after its election."""
    yield head + "tick 1 6\n" + ("calm\n" if between else "")
    for number in range(count):
        yield f"call 1 {number} over {key(number % keys)} {number:0{2 * VALUE}x}\n{between}"


def swaps():
    """The longest lines: calls with two values, at a peer that does not lead."""
    yield "ensemble 3\n" + ONE
    for number in range(MOST_LINES - 3):
        yield f"call 1 {number} swap {key(number)} {number:0{2 * VALUE}x} {1:0{2 * VALUE}x}\n"


def records():
    """Calls with the longest keys and values, each answered with a value of that length."""
    calls = (MOST_LINES - 3) // 2
    yield "ensemble 3\n" + ONE
    for number in range(calls):
        yield f"call 1 {number} over {key(number)} {number:0{2 * VALUE}x}\ncall 1 {calls + number} get {key(number)}\n"
    yield "answers\n"
    events = 2 * calls
    for number in range(calls):
        yield f"answer {number} {events} ok 1.1.{number}\n"
        yield f"answer {calls + number} {events} value 1.1.{number} {number:0{2 * VALUE}x}\n"
    for number in range(calls):
        yield f"history {key(number)} {number} {calls + number}\n"


def long_histories(count):
    """Histories of the greatest length, of which each is a fault."""
    yield "ensemble 3\n" + ONE + "".join(f"call 1 {number} get {number:04x}\n" for number in range(count))
    yield "answers\n"
    for number in range(count):
        yield f"history {number:04x}" + 4_194_290 * " 1" + "\n"


def root_script():
    """As many routed calls as there is room for, in 64 ensembles of nine peers."""
    view = " ".join(map(str, range(1, 10)))
    yield f"root 1\npeers 9\nview {view}\nat r tick 1 6\nat r calm\n"
    for slot in range(64):
        yield f"open 1 {slot} {slot} {view}\nat r calm\nat {slot} tick 1 6\nat {slot} calm\n"
    for number in range(64, 27_000):
        name = key(number)
        slot = hashlib.md5(bytes.fromhex(name)).digest()[0] >> 2
        yield f"route 1 {number} over {name} {number:0{2 * VALUE}x}\nat {slot} calm\n"


def spell_backup(items, top):
    parts = [b"RB\1\2", top, struct.pack(">I", len(items)), *items]
    return b"".join(parts)


def small_items():
    """As many entries as fit, with the shortest keys."""
    item = struct.Struct(">B3sQIQ16sB")
    room = (MOST_BACKUP - 24) // item.size
    return [item.pack(3, number.to_bytes(3, "big"), 1, 1, number, bytes(16), 0) for number in range(room)]


def tombstones():
    """As many entries with objects as fit, with the shortest keys and no values."""
    found, room = [], (MOST_BACKUP - 24) // 86
    for number in range(room):
        name = bytes([3]) + number.to_bytes(3, "big")
        version = struct.pack(">QIQ", 1, 1, number)
        held = version + version + name + b"\0"
        found.append(name + version + hashlib.md5(held).digest() + b"\1" + held)
    return found


def large_items():
    """As many entries with objects of the greatest length as fit."""
    found, size = [], 24
    for number in range(MOST_BACKUP):
        name = bytes([KEY]) + number.to_bytes(KEY, "big")
        version = struct.pack(">QIQ", 1, 1, number)
        held = version + version + name + b"\1" + struct.pack(">H", VALUE) + bytes(VALUE)
        item = name + version + hashlib.md5(held).digest() + b"\1" + held
        size += len(item)
        if size > MOST_BACKUP:
            return found
        found.append(item)


def lines(parts):
    return lambda: (part.encode() for part in parts())


# The words of each case, and what makes its input.
CASES = {
    "replay-longest-lines": ("replay", lines(swaps)),
    "replay-one-peer": ("replay", lines(lambda: overwrites("ensemble 3\n" + ONE, MOST_LINES - 4, MOST_LINES))),
    "replay-nine-peers": ("replay", lines(lambda: overwrites("ensemble 3\n" + NINE, 31_200, 31_200, "calm\n"))),
    "replay-one-key": ("replay", lines(lambda: overwrites("ensemble 3\n" + NINE, 31_200, 1, "calm\n"))),
    "audit-longest-lines": ("audit", lines(records)),
    "audit-long-histories": ("audit", lines(lambda: long_histories(60))),
    "root": ("root", lines(root_script)),
    "cluster": ("cluster 1 40000 1", lines(lambda: list(overwrites("", MOST_LINES - 4, MOST_LINES)))),
    "generate": ("generate 7 20000 schedule", lambda: ()),
    "generate-summary": ("generate 7 20000 summary", lambda: ()),
    # The digest of the root is not known here: the check then ends with `backup 8`, and has built the tree.
    "check-small-entries": ("check", lambda: [spell_backup(small_items(), bytes(16))]),
    "check-tombstones": ("check", lambda: [spell_backup(tombstones(), bytes(16))]),
    "check-large-objects": ("check", lambda: [spell_backup(large_items(), bytes(16))]),
}


def bounded():
    resource.setrlimit(resource.RLIMIT_AS, (MOST_MEMORY, MOST_MEMORY))


def measure(words, path, folder):
    """The status, the seconds elapsed and of the processor, and the megabytes of a run on this input."""
    with open(path, "rb") as data, open(os.devnull, "wb") as sink:
        began = time.monotonic()
        process = subprocess.Popen([PROGRAM, *words.split()], stdin=data, stdout=sink, cwd=folder, preexec_fn=bounded)
        _, status, used = os.wait4(process.pid, 0)
        elapsed = time.monotonic() - began
    return os.waitstatus_to_exitcode(status), elapsed, used.ru_utime + used.ru_stime, used.ru_maxrss / 1000


def main():
    with tempfile.TemporaryDirectory() as folder:
        for name in sys.argv[1:] or CASES:
            words, make = CASES[name]
            path = Path(folder) / "input"
            with open(path, "wb") as file:
                for part in make():
                    file.write(part)
            size = path.stat().st_size / 1e6
            status, elapsed, used, memory = measure(words, path, folder)
            print(f"{name}: status {status}, {elapsed:.1f} s, {used:.1f} s of the processor, {memory:.0f} MB, input {size:.0f} MB")


main()
