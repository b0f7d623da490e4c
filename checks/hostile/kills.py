"""Hostile stops: three peers that serve are killed at any moment, and some of their files are damaged in between.

docs/use.md says what a kill may do. While a minority is down or damaged, every answered write stands. If all were
killed at once, they serve again exactly if the tree of each verifies under its seal. A key is lost if its newest object
was on no disk yet.
"""
import contextlib
import random
import threading
import time

from disks import KEYS, Images
from formats import md5, read_log, read_saved_fact, read_slots, read_tree, spell_record
from running import GET, OVER, Ensemble, differs, get, over, spell_value, told, wait_for

PEERS = (1, 2, 3)

# Peers that do not serve after so many seconds, which are several elections, never will.
UNSERVED = 4.0


def held(value):
    """What a get finds where this value was written."""
    return f"value {value.hex()}"


def fact_of(it, peer):
    return read_saved_fact(read_slots(it.images(peer)[0])[1])


def has_tree(images):
    """Whether a tree verifies under the seal of its peer's fact."""
    nodes = read_log(images[1])[0]
    seal = read_saved_fact(read_slots(images[0])[1]).seal
    return nodes.get(b"") == seal and read_tree(nodes, seal) is not None


def restart(it, peer):
    """Starts a peer, and waits until it has synced: it then has accepted an epoch that it had not before."""
    before = fact_of(it, peer).epoch
    it.start(peer)
    return wait_for(lambda: fact_of(it, peer).epoch > before)


def open_three():
    it = Ensemble(3, PEERS)
    it.start_all()
    return it


def write(it, word):
    """Writes each key, and returns what a get then finds. No peer is then in the middle of a write, also the last one
    to hear of it."""
    for key in KEYS:
        it.client.over(key, word + key[:1], repeat=True)
    time.sleep(0.5)
    return {key: held(word + key[:1]) for key in KEYS}


def read(it, keys):
    return {key: get(it.client, key) for key in keys}


def damages(chance):
    """What becomes of the files of a peer that is down: from those of now and from older ones."""
    places = [chance.random() for _ in range(9)]
    yield "nothing", lambda now, old: now
    yield "nodes put back", lambda now, old: now._replace(nodes=old.nodes)
    yield "objects put back", lambda now, old: now._replace(objects=old.objects)
    yield "nodes and objects put back", lambda now, old: now._replace(nodes=old.nodes, objects=old.objects)
    yield "no nodes", lambda now, old: now._replace(nodes=b"")
    yield "no objects", lambda now, old: now._replace(objects=b"")
    yield "neither", lambda now, old: now._replace(nodes=b"", objects=b"")
    yield "exchanged", lambda now, old: now._replace(nodes=now.objects, objects=now.nodes)
    yield "cut", lambda now, old: now._replace(nodes=now.nodes[: int(places[0] * len(now.nodes))])
    yield "a foreign top record", lambda now, old: now._replace(nodes=now.nodes + spell_record(b"", md5(b"")))

    def flipped(now, old):
        nodes = bytearray(now.nodes)
        for place in places:
            nodes[int(place * len(nodes))] ^= 1 << int(place * 1e6) % 8
        return now._replace(nodes=bytes(nodes))

    yield "flipped", flipped


def one_is_damaged(damage, peer):
    """What is wrong with three peers of which one stops, finds its files damaged and starts again, or None. Then
    another one is killed, so that the damaged one is of the majority: it has to have what was written."""
    with open_three() as it:
        write(it, b"old")
        old = Images(*it.images(peer))
        wanted = write(it, b"new")
        it.kill(peer)
        wanted[KEYS[0]] = held(b"while it was down")
        it.client.over(KEYS[0], b"while it was down", repeat=True)
        it.put_back(damage(Images(*it.images(peer)), old), peer)
        if not restart(it, peer):
            return "the peer did not sync"
        got = read(it, KEYS)
        if got != wanted:
            return differs(got, wanted)
        it.kill(peer % 3 + 1)
        return differs(read(it, KEYS), wanted)


def loses_a_key():
    """A leader whose write reached nobody stops, and the object, which is not synced, is missing. Its tree names an object
    that no peer has: the key is lost until it is written again, and the other keys are not."""
    with open_three() as it:
        wanted = write(it, b"old")
        leader = it.client.peer
        it.kill(*(peer for peer in PEERS if peer != leader))
        before = Images(*it.images(leader))
        reply = it.client.ask(OVER, KEYS[0], spell_value(b"nowhere else"), patience=3)
        if reply is not None and reply.name != "timeout":
            return f"a leader alone answered {reply}"
        it.kill()
        after = Images(*it.images(leader))
        if len(after.objects) <= len(before.objects):
            return "the leader did not write the object"
        it.put_back(after._replace(objects=before.objects), leader)
        it.start_all()
        wanted[KEYS[0]] = "lost"
        got = read(it, KEYS)
        if got != wanted:
            return differs(got, wanted)
        again = over(it.client, KEYS[0], b"again"), get(it.client, KEYS[0])
        return differs(again, ("ok", held(b"again")))


def power_fails(lost_by):
    """All peers stop, and the nodes of the last write, which are not synced, are missing at some: their facts, which
    are synced, have the seals of trees that they lost. Nobody serves while one of them has damage."""
    with open_three() as it:
        write(it, b"old")
        nodes = {peer: it.images(peer)[1] for peer in PEERS}
        wanted = write(it, b"new")
        it.kill()
        for peer in lost_by:
            it.put_back(Images(*it.images(peer))._replace(nodes=nodes[peer]), peer)
        it.start_all()
        if not lost_by:
            return differs(read(it, KEYS), wanted)
        return differs(get(it.client, KEYS[0], UNSERVED), "unavailable")


class Writer:
    """A client that writes and reads keys, and knows what it may find.

    A write without an answer may take effect at any later time, but once: a value that another one has replaced does
    not come back. A key may be lost if a call on it had no answer, since a get may have been about to write its value
    again in a new epoch.
    """

    def __init__(self, client, seed):
        self.client, self.chance, self.number = client, random.Random(seed), 0
        self.last = {key: "notfound" for key in KEYS}
        self.open = {key: set() for key in KEYS}
        self.torn = set()
        self.complaint = None

    def write(self, key):
        self.number += 1
        value = b"%d" % self.number
        if over(self.client, key, value, patience=5) == "ok":
            self.last[key] = held(value)
            self.torn.discard(key)
        else:
            self.open[key].add(held(value))
            self.torn.add(key)

    def read(self, key, patience=20.0):
        """Reads a key, and says whether the peers served."""
        reply, alone = self.client.call(GET, key, repeat=True, patience=patience)
        if not alone:
            self.torn.add(key)
        if reply.name == "timeout":
            return False
        found = told(reply)
        if found in self.open[key]:
            self.open[key].discard(found)
            self.last[key] = found
        elif found != self.last[key] and not (found == "lost" and key in self.torn):
            self.complaint = f"{key[:1]!r}: wanted {self.last[key]} or one of {self.open[key]}, got {found}"
        return True

    def work(self, ends):
        while not ends.is_set() and not self.complaint:
            key = self.chance.choice(KEYS)
            self.write(key)
            self.read(key, 5)

    @contextlib.contextmanager
    def at_work(self):
        """Writes and reads in the background."""
        ends = threading.Event()
        thread = threading.Thread(target=self.work, args=[ends])
        thread.start()
        try:
            yield
        finally:
            ends.set()
            thread.join()

    def complaint_at_end(self):
        """What is wrong with what the client saw, after it has read every key once more, or None."""
        if not all(self.read(key) for key in KEYS):
            return "the peers do not serve"
        return self.complaint or (None if self.number else "nothing was written")


def one_by_one(seed, kills):
    """What is wrong with three peers that are killed one after another while a client writes, or None. The next one is
    killed once the one before has synced."""
    chance = random.Random(seed)
    with open_three() as it:
        writer = Writer(it.client, seed)
        with writer.at_work():
            for _ in range(kills):
                peer = chance.choice(PEERS)
                time.sleep(chance.uniform(0.2, 0.6))
                it.kill(peer)
                time.sleep(chance.choice((0, 0.1, 1)))
                if not restart(it, peer):
                    return f"peer {peer} did not sync"
        return writer.complaint_at_end()


def all_at_once(seed, kills):
    """What is wrong with three peers that are killed together while a client writes, or None. They serve again exactly
    if each tree verifies under its seal, and then have what was answered."""
    chance = random.Random(seed)
    with open_three() as it:
        writer = Writer(it.client, seed)
        for _ in range(kills):
            with writer.at_work():
                time.sleep(chance.uniform(1.2, 1.8))
                it.kill()
            if not all(has_tree(it.images(peer)) for peer in PEERS):
                it.start_all()
                return writer.complaint or differs(get(it.client, KEYS[0], UNSERVED), "unavailable")
            it.start_all()
            complaint = writer.complaint_at_end()
            if complaint:
                return complaint
    return None


def cases(long):
    chance = random.Random(57)
    for name, damage in damages(chance):
        for peer in PEERS if long else (chance.choice(PEERS),):
            yield f"one is damaged: {name}", lambda damage=damage, peer=peer: one_is_damaged(damage, peer)
    yield "a key is lost", loses_a_key
    for lost_by in [(), (1,), (2, 3), PEERS]:
        yield f"power fails at {lost_by}", lambda lost_by=lost_by: power_fails(lost_by)
    for seed in range(12 if long else 3):
        yield f"one by one {seed}", lambda seed=seed: one_by_one(seed, 60 if long else 5)
        yield f"all at once {seed}", lambda seed=seed: all_at_once(seed, 20 if long else 3)
