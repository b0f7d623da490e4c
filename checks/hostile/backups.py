"""Hostile backups: bytes for `check` that are cut, changed, put in another order, or promise more than they hold.

What `check` has to print is what the reader of docs/formats.md says: the cause of the first fault from the left, then
an object that does not match its entry, then a digest that is not that of the plain build.
"""
import random

from formats import BACKUP_CAUSES, Object, Wrong, entry_of, md5, read_backup, spell_backup, spell_entry
from running import BACKUP, DONE, LIMIT, LITTLE_MEMORY, differs, run

MOST_BYTES = 268_435_456


def checks_rightly(data, **limits):
    """What is wrong with the check of these bytes, or None."""
    try:
        items = read_backup(data)
        wanted = DONE, f"entries {len(items)} objects {sum(it is not None for _, it in items)}\n"
    except Wrong as wrong:
        wanted = BACKUP, f"backup {BACKUP_CAUSES[wrong.fault]}\n"
    return differs(run("ensemble check", data, **limits), wanted)


def item(key, seq, value, has_object=True):
    it = Object((1, 1, seq), (1, 1, seq), key, value)
    return entry_of(it), it if has_object else None


# Three keys of one segment of the tree: the MD5 of each begins with the same 20 bits.
SAME_SEGMENT = [bytes.fromhex(key) for key in ("0015af", "002dc1", "00308f")]


def samples():
    """Items of backups that pass."""
    yield []
    yield [item(b"k", 1, b"v")]
    yield [item(b"k", 1, None)]
    yield [item(b"k", 1, b"v", has_object=False)]
    yield [item(b"a", 3, b""), item(b"b" * 64, 2, b"x" * 1024), item(b"c", 1, None, has_object=False)]
    yield [item(bytes([first, second]), 1 + first, b"v" * second) for first in range(8) for second in range(8)]
    yield [item(key, 7, key) for key in SAME_SEGMENT]


def broken(items):
    """Backups of these items that each have one fault of the whole, with the cause of it."""
    top = md5(spell_backup(items)[:-1])
    yield "another top", spell_backup(items, top)
    if len(items) > 1:
        yield "two items exchanged", spell_backup([items[1], items[0], *items[2:]])
        yield "an item twice", spell_backup([items[0], *items])
        yield "an item left out", spell_backup(items[1:], spell_backup(items)[4:20])
        (first, held), (second, other) = items[:2]
        yield "objects exchanged", spell_backup([(first, other), (second, held), *items[2:]])
    for (key, version, digest), it in items[:1]:
        yield "another version", spell_backup([((key, (9, 9, 9), digest), it), *items[1:]])
        yield "another digest", spell_backup([((key, version, md5(b"")), it), *items[1:]])


def promises(data):
    """Backups whose counts promise all that a count can say, over the bytes of a backup that holds little."""
    yield "entries", data[:20] + b"\xff\xff\xff\xff" + data[24:]
    yield "entries, and no byte more", data[:20] + b"\xff\xff\xff\xff"


def cases(long):
    chance = random.Random(53)
    backups = [spell_backup(items) for items in samples()]
    for items in samples():
        whole = spell_backup(items)
        for name, data in [("whole", whole), ("a byte more", whole + b"\0"), *broken(items)]:
            yield name, lambda data=data: checks_rightly(data)
    for data in backups[1:5]:
        for size in chance.sample(range(len(data)), len(data) if long else min(40, len(data))):
            yield f"cut at {size}", lambda data=data[:size]: checks_rightly(data)
    for data in backups[1:4]:
        for at in range(len(data)):
            for byte in range(256) if long else {0, 255, (data[at] + 1) % 256} - {data[at]}:
                changed = data[:at] + bytes([byte]) + data[at + 1 :]
                yield f"byte {at} is {byte}", lambda data=changed: checks_rightly(data)
    for data in backups[1:]:
        for _ in range(400 if long else 10):
            at, size = chance.randrange(len(data)), chance.randrange(1, 40)
            other = chance.choice(backups)
            changed = data[:at] + chance.choice((b"", other[at : at + size], bytes(size))) + data[at + size :]
            yield f"{size} bytes at {at}", lambda data=changed: checks_rightly(data)
        for name, changed in promises(data):
            yield name, lambda data=changed: checks_rightly(data, memory=LITTLE_MEMORY)
    yield "a count of zero, and an entry", lambda: checks_rightly(
        spell_backup([]) + spell_entry(item(b"k", 1, b"v")[0]) + b"\0"
    )
    yield "noise", lambda: checks_rightly(chance.randbytes(1 << 20))
    if long:
        over = b"RB\1\2" + bytes(MOST_BYTES - 3)
        wanted = LIMIT, f"limit backup {MOST_BYTES}\n"
        yield "a byte too many", lambda: differs(run("ensemble check", over), wanted)
