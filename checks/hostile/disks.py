"""Hostile disks: the files of a peer, cut, flipped, exchanged, put back, or left by a kill in the middle of a write.

What a peer has to make of its files is what the readers of docs/formats.md say, by the rules of docs/protocol.md: a
record of facts that is no fact ends it with `store fault`; files without a fact are those of a new peer; and a peer
alone in its view serves exactly if its top record is the seal in its fact, if that has one, and every node of its tree
verifies, in either version. Then a key has the value that its entry names, or is `lost` if the file of objects does not
have it.
"""
import random
import struct
from typing import NamedTuple

from formats import (
    Wrong,
    build,
    entry_of,
    md5,
    opening_fact,
    read_either_tree,
    read_log,
    read_object,
    read_saved_fact,
    read_slots,
    spell_fact,
    spell_record,
    spell_slot,
)
from running import DONE, STORE_FAULT, Ensemble, differs, get, over

KEYS = [b"a", b"b", b"c", b"d" * 64]
UNTRIED = b"never written"
GREATEST = 2**64 - 1

# An election takes six ticks of 100 milliseconds. A peer that does not serve after so many seconds never will.
ELECTED = 3.0


class Images(NamedTuple):
    """The three files of a peer."""

    facts: bytes
    nodes: bytes
    objects: bytes


class Prepared(NamedTuple):
    """Files of a peer that was alone in its view, around its last write, which was that of `last`."""

    before: Images
    after: Images
    old: bytes
    new: bytes
    last: bytes


def prepare(value_size=3):
    """A peer alone writes its keys, one of them twice, and is killed before and after the last write."""
    with Ensemble() as it:
        it.start()
        for number, key in enumerate(KEYS):
            assert over(it.client, key, bytes([65 + number]) * value_size) == "ok"
        it.kill()
        before = Images(*it.images())
        # It starts again and is elected. What that writes belongs to the files before the last write.
        it.start()
        assert get(it.client, KEYS[1]) == f"value {(bytes([66]) * value_size).hex()}"
        before = Images(*it.images())
        assert over(it.client, KEYS[1], b"new") == "ok"
        it.kill()
        return Prepared(before, Images(*it.images()), bytes([66]) * value_size, b"new", KEYS[1])


def wanted_of(images):
    """What each key is answered by a peer alone with these files; `unavailable` for all, or `store fault`."""
    slot = read_slots(images.facts)
    if slot is None:
        return {key: "notfound" for key in (*KEYS, UNTRIED)}
    try:
        fact = read_saved_fact(slot[1])
    except Wrong:
        return "store fault"
    if slot[0] == GREATEST:
        return "store fault"
    nodes, objects = read_log(images.nodes)[0], read_log(images.objects)[0]
    root = nodes.get(b"")
    entries = read_either_tree(nodes, root) if fact.seal in (None, root) else None
    if entries is None:
        return {key: "unavailable" for key in (*KEYS, UNTRIED)}
    return {key: answer_of(entries.get(key), objects.get(key)) for key in (*KEYS, UNTRIED)}


def answer_of(entry, content):
    """What a get of a key is answered that has this entry, by its object's bytes."""
    if entry is None:
        return "notfound"
    try:
        it = read_object(content or b"")
    except Wrong:
        return "lost"
    if entry_of(it) != entry:
        return "lost"
    return "notfound" if it.value is None else f"value {it.value.hex()}"


def serves_rightly(images, wanted=None):
    """What is wrong with what a peer alone answers that is started on these files, or None. A key that is lost is
    written again, and read."""
    wanted = wanted or wanted_of(images)
    with Ensemble() as it:
        it.put_back(images)
        it.start()
        if wanted == "store fault":
            return differs(it.end(), (STORE_FAULT, "store fault\n"))
        got = {}
        for key in wanted:
            # Once a peer has not served for so long, it does not serve the other keys either.
            never = wanted[key] == "unavailable"
            got[key] = get(it.client, key, 20 if not never else 0.1 if got else ELECTED)
        if got != wanted:
            return differs(got, wanted)
        for key in [key for key in wanted if wanted[key] == "lost"]:
            again = over(it.client, key, b"again"), get(it.client, key)
            if again != ("ok", f"value {b'again'.hex()}"):
                return f"a lost key that was written again: {again}"
    return None


def starts_rightly(images):
    """What is wrong with the files that a peer leaves which starts, makes one turn and ends, or None."""
    slot, nodes, objects = read_slots(images.facts), read_log(images.nodes), read_log(images.objects)
    with Ensemble() as it:
        it.put_back(images)
        it.start(turns=1)
        ended = it.end()
        left = Images(*it.images())
    try:
        if slot is not None:
            read_saved_fact(slot[1])
    except Wrong:
        return differs((ended, left.facts), ((STORE_FAULT, "store fault\n"), images.facts))
    if ended != (DONE, "peer 1 frames 0 refused 0\n"):
        return f"ended with {ended}"
    if left.objects != images.objects[: objects[1]]:
        return "the file of objects is not what was whole of it"
    if slot is not None:
        if left.facts != images.facts:
            return "the file of facts was changed"
        return None if left.nodes == images.nodes[: nodes[1]] else "the file of nodes is not what was whole of it"
    stored, top = build([])
    saved = spell_slot(1, spell_fact(opening_fact((1,), top)))
    if left.facts != saved + images.facts[len(saved) :]:
        return f"the file of facts has {left.facts.hex()}, wanted {saved.hex()}"
    contents = read_log(left.nodes)[0]
    is_right = left.nodes.startswith(images.nodes[: nodes[1]]) and (contents[b""], contents[top]) == (top, stored[top])
    return None if is_right else "the file of nodes does not have the empty tree"


def slots_of(record, serial):
    """Files of facts that hold a record in the first slot, in the second, or behind a slot that counts as closed."""
    closed = bytes(512)
    yield "slot A", spell_slot(serial, record)
    yield "slot B", closed + spell_slot(serial, record)
    yield "both, B later", spell_slot(serial - 1, record).ljust(512, b"\0") + spell_slot(serial, record)
    yield "both, with one number", spell_slot(serial, record).ljust(512, b"\0") + spell_slot(serial, b"no fact")
    yield "A is cut by the end of the file", spell_slot(serial, record)[:-1]
    yield "A says 481 bytes", (b"\1" + struct.pack(">QH", serial, 481)).ljust(512, b"\1") + spell_slot(1, record)
    yield "B is no fact", spell_slot(serial - 1, record).ljust(512, b"\0") + spell_slot(serial, b"no fact")
    yield "gates of 2 and 255", spell_slot(serial, record, gate=2).ljust(512, b"\0") + spell_slot(serial, record, 255)


def facts_cases(base, chance, long):
    """The file of facts cut, with each byte changed, and made by hand. The peer makes one turn."""
    facts, record = base.facts, read_slots(base.facts)[1]
    fact = read_saved_fact(record)
    found = [(f"cut at {size}", facts[:size]) for size in range(len(facts) + 1)]
    for at in range(len(facts)):
        for byte in {0, 1, 2, 255, (facts[at] + 1) % 256} - {facts[at]}:
            found.append((f"byte {at} is {byte}", facts[:at] + bytes([byte]) + facts[at + 1 :]))
    found = found if long else chance.sample(found, 150)
    found += slots_of(record, 7)
    found += [("without its seal", spell_slot(9, spell_fact(fact._replace(seal=None))))]
    found += [("longer by a byte", spell_slot(9, record + b"\0")), ("empty record", spell_slot(9, b""))]
    found += [(f"noise {number}", chance.randbytes(chance.randrange(1100))) for number in range(200 if long else 20)]
    for name, data in found:
        yield f"facts, {name}", lambda data=data: starts_rightly(base._replace(facts=data))


def log_cases(base, chance, long):
    """The logs cut, with a byte changed, exchanged, empty or filled up. The peer makes one turn."""
    for name in ("nodes", "objects"):
        log = getattr(base, name)
        sizes = range(len(log)) if long else chance.sample(range(len(log)), 40)
        found = [(f"cut at {size}", log[:size]) for size in sizes]
        for at in range(len(log)) if long else chance.sample(range(len(log)), 60):
            found.append((f"byte {at} flipped", log[:at] + bytes([log[at] ^ (1 << at % 8)]) + log[at + 1 :]))
        found += [("zeros behind", log + bytes(100)), ("noise behind", log + chance.randbytes(100))]
        found += [("a great length", log + b"\1\0" + struct.pack(">Q", GREATEST) + bytes(50))]
        found += [("the longest name", log + spell_record(255 * b"n", b"x")), ("twice", log + log)]
        for what, data in found:
            yield f"{name}, {what}", lambda name=name, data=data: starts_rightly(base._replace(**{name: data}))


def stages(prepared):
    """The files after each byte of the last write, in the order in which it is written: the nodes and the top record,
    then the object, then the fact in three steps; and with parts of the object missing, which is not synced. With each
    goes the stage at which a kill, or a loss of power, leaves them."""
    before, after = prepared.before, prepared.after
    for size in range(len(before.nodes), len(after.nodes)):
        yield "before the tree is written", before._replace(nodes=after.nodes[:size])
    written = before._replace(nodes=after.nodes)
    start = 512 * (read_slots(before.facts[:512]) == read_slots(before.facts))
    serial, record = read_slots(after.facts)
    filled = spell_slot(serial, record, gate=0)
    old = before.facts.ljust(start, b"\0")
    for size in range(len(before.objects), len(after.objects)):
        yield "between tree and fact", written._replace(objects=after.objects[:size])
    put = written._replace(objects=after.objects)
    yield "between tree and fact", put
    for size in range(1, len(filled) + 1):
        facts = old[:start] + filled[:size] + old[start + size :]
        yield "between tree and fact", put._replace(facts=facts)
    yield "after the write", after
    for size in range(len(before.objects), len(after.objects)):
        yield "without the object", after._replace(objects=after.objects[:size])


def of_stage(prepared, stage):
    """What each key is answered on the files of this stage, in the words of docs/use.md."""
    wanted = {key: f"value {(bytes([65 + number]) * 3).hex()}" for number, key in enumerate(KEYS)}
    wanted[UNTRIED] = "notfound"
    if stage == "between tree and fact":
        return {key: "unavailable" for key in wanted}
    if stage == "without the object":
        wanted[prepared.last] = "lost"
    if stage == "after the write":
        wanted[prepared.last] = f"value {prepared.new.hex()}"
    return wanted


def kill_cases(prepared, chance, long):
    found = list(stages(prepared))
    if not long:
        by_stage = {}
        for stage, images in found:
            by_stage.setdefault(stage, []).append(images)
        found = [
            (stage, images)
            for stage, every in by_stage.items()
            for images in {*every[:1], *every[-1:], *chance.sample(every, min(6, len(every)))}
        ]
    for stage, images in found:
        wanted = of_stage(prepared, stage)
        assert wanted == wanted_of(images), stage
        yield f"killed {stage}", lambda images=images, wanted=wanted: serves_rightly(images, wanted)


def damage_cases(prepared, chance, long):
    """Files that are whole to the system, and wrong."""
    base, old = prepared.after, prepared.before
    yield "as they were left", base
    yield "nodes of before the last write", base._replace(nodes=old.nodes)
    yield "objects of before the last write", base._replace(objects=old.objects)
    yield "facts and nodes of before the last write", base._replace(facts=old.facts, nodes=old.nodes)
    yield "no nodes", base._replace(nodes=b"")
    yield "no objects", base._replace(objects=b"")
    yield "no facts", base._replace(facts=b"")
    yield "nodes and objects exchanged", base._replace(nodes=base.objects, objects=base.nodes)
    yield "the greatest serial number", base._replace(facts=spell_slot(GREATEST, read_slots(base.facts)[1]))
    yield "another top record", base._replace(nodes=base.nodes + spell_record(b"", md5(b"")))
    yield "a top record of 15 bytes", base._replace(nodes=base.nodes + spell_record(b"", bytes(15)))
    yield "an object under another key", base._replace(
        objects=base.objects + spell_record(KEYS[0], read_log(base.objects)[0][KEYS[2]])
    )
    yield "an object that is no object", base._replace(objects=base.objects + spell_record(KEYS[0], b"?"))
    contents = read_log(base.nodes)[0]
    for name, content in list(contents.items()) if long else chance.sample(sorted(contents.items()), 8):
        for changed in (b"", content[:-1], content + b"\0", content[:-1] + bytes([content[-1] ^ 1])):
            yield "a node that is another", base._replace(nodes=base.nodes + spell_record(name, changed))
    for name in ("nodes", "objects"):
        log = getattr(base, name)
        for at in chance.sample(range(len(log)), 200 if long else 8):
            flipped = log[:at] + bytes([log[at] ^ (1 << at % 8)]) + log[at + 1 :]
            yield f"{name} with byte {at} flipped", base._replace(**{name: flipped})
            yield f"{name} with zeros from {at} on", base._replace(**{name: log[:at] + bytes(len(log) - at)})


def full_disk(size, dies):
    """What is wrong with a peer alone that may write no file beyond a size, or None. Its write fails, or ends it.

    The file of facts stays below that size, so a put stops in the nodes, before it had an effect, or in the object,
    before its fact was saved: the tree is then damaged.
    """
    with Ensemble() as it:
        it.start(size=size, dies=dies)
        writer = Puts(it)
        writer.put(400)
        if dies:
            it.processes[1].wait(30)
            it.kill()
        else:
            ended = it.end(seconds=30)
            if ended != (STORE_FAULT, "store fault\n"):
                return f"ended with {ended}"
        return writer.complaint()


class Puts:
    """Puts to a peer alone, up to the first that is not answered, and what its files may then have."""

    def __init__(self, it):
        self.it = it
        self.answered, self.tried = {}, {}

    def put(self, count, patience=3):
        for number in range(count):
            key, value = KEYS[number % 2], struct.pack(">I", number) + bytes(500 * (number % 3))
            self.tried[key] = value
            if over(self.it.client, key, value, patience) != "ok":
                return
            self.answered[key] = value

    def may_have(self, key):
        last = f"value {self.answered[key].hex()}" if key in self.answered else "notfound"
        if self.tried[key] == self.answered.get(key):
            return {last}
        return {last, f"value {self.tried[key].hex()}", "lost"}

    def complaint(self):
        """What is wrong with the files that the peer left, or with what it answers on them, or None. Only a put that
        was not answered may have left damage."""
        wanted = wanted_of(Images(*self.it.images()))
        if "unavailable" in wanted.values() and self.tried != self.answered:
            wanted = {KEYS[0]: "unavailable"}
        else:
            wanted = {key: wanted[key] for key in self.tried}
            wrong = [key for key in wanted if wanted[key] not in self.may_have(key)]
            if wrong:
                return f"the files have {wanted[wrong[0]][:40]} for {wrong[0][:1]!r}"
        self.it.start()
        never = "unavailable" in wanted.values()
        return differs({key: get(self.it.client, key, ELECTED if never else 20) for key in wanted}, wanted)


def counts_its_saves():
    """A peer with a seal saves its fact with each put: the serial number rises by one with each, and not with a get."""
    with Ensemble() as it:
        it.start()
        get(it.client, KEYS[0])
        first = read_slots(it.images()[0])[0]
        for number in range(20):
            over(it.client, KEYS[number % 4], b"%d" % number)
            get(it.client, KEYS[0])
        it.kill()
        return differs(read_slots(it.images()[0])[0], first + 20)


def cases(long):
    chance = random.Random(56)
    prepared = prepare()
    yield from facts_cases(prepared.after, chance, long)
    yield from log_cases(prepared.after, chance, long)
    yield from kill_cases(prepared, chance, long)
    for name, images in damage_cases(prepared, chance, long):
        yield f"damage, {name}", lambda images=images: serves_rightly(images)
    for size in range(1100, 12_000, 61 if long else 1500):
        for dies in (False, True):
            yield f"no file beyond {size} bytes", lambda size=size, dies=dies: full_disk(size, dies)
    yield "saves", counts_its_saves
