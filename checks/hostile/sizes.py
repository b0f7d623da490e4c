"""Hostile sizes: inputs that are long, or promise more than they hold, within little memory.

What each run prints or answers is what the readers of docs/schedules.md and docs/formats.md say.
"""
import functools
import struct
from pathlib import Path

from disks import GREATEST, KEYS, Images, prepare, wanted_of
from formats import SEGMENT_TAG, md5, read_log, read_saved_fact, read_slots, spell_fact, spell_record, spell_slot
from frames import counts_rightly, of_each_length
from running import DONE, LITTLE_MEMORY, SCHEDULE, Ensemble, differs, get, run
from schedules import LEADS

ZEROS = 1 << 30
HEADS = {
    "replay": LEADS,
    "audit": LEADS,
    "root": "root 1\npeers 1\nview 1\nat r tick 1 6\nat r calm\n",
    "cluster 1 40000 1": "",
}


def has_no_end(word, head):
    """A line of 64 MiB without a line feed takes no more memory than its first bytes."""
    endless, line = head.encode() + bytes(64 << 20), head.count("\n") + 1
    return differs(run(f"ensemble {word}", endless, memory=LITTLE_MEMORY), (SCHEDULE, f"schedule {line} 1\n"))


def serves_in_little(images, wanted=None, zeros=0):
    """What is wrong with what a peer alone answers that is started on these files, each with so many zeros behind it, or
    None. The zeros take no room on a disk."""
    wanted = wanted or wanted_of(images)
    with Ensemble() as it:
        it.put_back(images)
        for name in images._fields if zeros else ():
            with open(Path(it.folder()) / name, "ab") as file:
                file.truncate(file.tell() + zeros)
        it.start(memory=LITTLE_MEMORY)
        return differs({key: get(it.client, key, 3) for key in wanted}, wanted)


def with_root(images, node):
    """The files with this node as the root of the tree, sealed."""
    serial, record = read_slots(images.facts)
    fact = read_saved_fact(record)._replace(seal=md5(node))
    nodes = spell_record(md5(node), node) + spell_record(b"", md5(node))
    return images._replace(facts=spell_slot(serial, spell_fact(fact)), nodes=nodes)


def promises(base):
    """Files whose lengths and counts promise all that they can say, with what is answered on them."""
    name = md5(b"")
    record = b"\1" + bytes([len(name)])
    for length in (GREATEST, 1 << 62, 1 << 40, len(base.nodes) + 1):
        behind = record + struct.pack(">Q", length) + name + bytes(40)
        yield f"a record of {length} bytes", base._replace(nodes=base.nodes + behind, objects=base.objects + behind), None
    every = 4 * b"\xff"
    unserved = {KEYS[0]: "unavailable"}
    for version, tag in SEGMENT_TAG.items():
        segment = bytes([tag]) + bytes(5) + every + bytes(300)
        inner = bytes([tag - 1]) + bytes(5) + b"\xff\xff" + bytes(15)
        yield f"a segment of 2^32 - 1 entries, version {version}", with_root(base, segment), unserved
        yield f"sixteen children, version {version}", with_root(base, inner), unserved
    for key in KEYS:
        content = read_log(base.objects)[0][key]
        at = 41 + len(key)
        cut = spell_record(key, content[:at] + b"\1\xff\xff" + content[at + 3 :])
        yield "an object with a value of 65,535 bytes", base._replace(objects=base.objects + cut), None


def cases(long):
    for word, head in HEADS.items():
        yield f"{word}, a line without an end", functools.partial(has_no_end, word, head)
    record = LEADS + "call 1 1 get 6b\nanswers\nhistory 6b" + 4_194_290 * " 1" + "\n"
    wanted = DONE, '{"faults":[{"clause":1,"id":1,"key":"6b"}],"keys":1,"legal":0}\n'
    # The line, of 8 MiB, and its numbers, of 8 bytes each, while they are doubled.
    within = functools.partial(run, "ensemble audit", record.encode(), memory=128 << 20)
    yield "the longest history", lambda: differs(within(), wanted)
    base = prepare().after
    yield "a gibibyte of zeros", lambda: serves_in_little(base, zeros=ZEROS)
    yield "a gibibyte of zeros alone", lambda: serves_in_little(Images(b"", b"", b""), zeros=ZEROS)
    for name, images, answered in promises(base):
        yield name, functools.partial(serves_in_little, images, answered)
    yield "datagrams", lambda: counts_rightly(list(of_each_length()), memory=LITTLE_MEMORY)
