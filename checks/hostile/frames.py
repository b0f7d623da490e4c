"""Hostile frames: datagrams to a peer that serves over UDP.

A peer prints at its end how many frames were steps and how many it ignored. Which datagrams are steps is what the
reader of docs/formats.md says, and which senders may send them is in docs/use.md. So of each table the exact line is
wanted. Between the datagrams go calls, and their answers show that the peer still serves.
"""
import random
import socket
import struct
import threading

from formats import (
    Object,
    entry_of,
    is_taken,
    md5,
    opening_fact,
    spell_entry,
    spell_epoch,
    spell_fact,
    spell_frame,
    spell_key,
    spell_object,
    spell_position,
    spell_value,
    spell_version,
    spell_view,
)
from running import DONE, GET, Ensemble, differs, get, over

PEERS, VIEW = 3, (2, 3)

# A turn without a frame takes a millisecond or more: so long a peer waits for its datagrams, and for each batch of them.
IDLE_TURNS, IDLE_TURNS_EACH = 6000, 30
KEY = spell_key(b"k")
EPOCH, ROUND = spell_epoch((1, 2)), struct.pack(">Q", 1)
OBJECT = Object((1, 2, 1), (1, 2, 1), b"k", b"v")
FACT = opening_fact(VIEW)._replace(ballot=(1, 2), epoch=(1, 2), seq=1, leader=2)
ROOT, LEAF = spell_position((0, 0)), spell_position((5, 2**20 - 1))
ADDED = FACT._replace(seq=2, change=(1, (1, 2, 3)))
ENTRY, STAMP, VALUE = spell_entry(entry_of(OBJECT)), spell_version((1, 2, 1)), spell_value(b"v")

# Bodies of each kind of frame, with every form of each part.
BODIES = {
    1: [b""],
    2: [spell_fact(FACT), spell_fact(ADDED), spell_fact(FACT._replace(views=((2, 3), (1, 2)), change=(2,)))],
    3: [EPOCH, spell_epoch((2**64 - 1, 2**32 - 1))],
    4: [EPOCH + spell_fact(FACT)],
    5: [EPOCH + b"\1" + spell_epoch((9, 3)), EPOCH + b"\2", EPOCH + b"\3" + LEAF],
    6: [spell_fact(FACT), spell_fact(ADDED)],
    7: [EPOCH + ROUND],
    8: [EPOCH + ROUND + KEY, EPOCH + ROUND + spell_key(64 * b"k")],
    9: [
        EPOCH + ROUND + KEY + b"\0\0",
        EPOCH + ROUND + KEY + b"\1" + ENTRY + b"\1" + spell_object(OBJECT),
        EPOCH + ROUND + KEY + b"\1" + ENTRY + b"\0",
    ],
    10: [EPOCH + spell_object(OBJECT), EPOCH + spell_object(OBJECT._replace(value=None))],
    11: [EPOCH + KEY + STAMP],
    12: [EPOCH + ROUND],
    13: [EPOCH + ROUND],
    14: [EPOCH + ROOT + b"\0", EPOCH + LEAF + KEY],
    15: [
        EPOCH + ROOT + b"\0\1\1\x80\1" + 2 * md5(b""),
        EPOCH + LEAF + KEY + b"\0\2\2" + ENTRY + spell_entry((b"l", (1, 2, 1), md5(b""))) + b"\1",
        EPOCH + ROOT + b"\0\1\3" + ROOT,
    ],
    16: [spell_fact(ADDED)],
    17: [EPOCH],
    18: [
        ROUND + bytes([tag]) + KEY + arguments
        for tag, arguments in enumerate([b"", VALUE, STAMP + VALUE, VALUE, ROUND, VALUE + VALUE, VALUE, b""], 1)
    ],
    19: [ROUND + bytes([tag]) + rest for tag, rest in enumerate([STAMP + VALUE, b"", STAMP, *5 * [b""]], 1)],
}


def frame(kind, body):
    """A frame that peer 1 takes, unless it is an answer: those go to clients."""
    return spell_frame(kind, 32 if kind >= 18 else 2, 1, body)


def changed_at_each_byte(data, long):
    """Each prefix, a byte more, and each byte at its least, at its greatest and beside what it was."""
    yield from (data[:size] for size in range(len(data)))
    yield data + b"\0"
    for at, old in enumerate(data):
        values = range(256) if long else {0, 255, (old + 1) % 256, (old - 1) % 256, 64, 65, 10, 33}
        for byte in set(values) - {old}:
            yield data[:at] + bytes([byte]) + data[at + 1 :]


def by_each_sender(kind, body):
    """The frame between all numbers at the ends of their ranges."""
    for sender in (0, 1, 2, 3, 4, 31, 32, 33, 63, 64, 2**32 - 1):
        for receiver in (0, 1, 2, 32, 63, 64, 257):
            yield spell_frame(kind, sender, receiver, body)


def of_each_length():
    """The longest frames and datagrams, and some that are longer than any frame."""
    swap = ROUND + b"\6" + spell_key(64 * b"k") + 2 * spell_value(1024 * b"v")
    entries = [(bytes([64 + number]) * 64, (1, 2, 1), md5(b"")) for number in range(33)]
    for count in (32, 33):
        page = b"".join(map(spell_entry, entries[:count]))
        yield frame(15, EPOCH + LEAF + b"\0\1\2" + bytes([count]) + page + b"\1")
    yield frame(15, EPOCH + ROOT + b"\0\1\1\xff\xff" + 16 * md5(b""))
    yield frame(18, swap)
    yield frame(18, swap[:-1025] + struct.pack(">H", 1025) + 1025 * b"v")
    yield frame(16, spell_fact(FACT._replace(views=2 * (tuple(range(1, 10)),), change=(1, tuple(range(23, 32))))))
    yield frame(16, spell_fact(FACT._replace(views=3 * ((1,),))))
    yield frame(16, spell_fact(FACT)[:-1] + b"\1" + spell_view(range(1, 11)))
    for size in (0, 1, 13, 14, 4095, 4096, 4097, 65535 - 28 - 14):
        yield spell_frame(1, 2, 1, bytes(size), length=min(size, 65535))
        yield spell_frame(1, 2, 1, bytes(size), length=0)
        yield bytes(size)


def noise(chance, count):
    """Frames with some bytes changed, and heads of frames before the rest of others."""
    every = [frame(kind, body) for kind, bodies in BODIES.items() for body in bodies]
    for _ in range(count):
        data = bytearray(chance.choice(every))
        for _ in range(chance.randrange(4)):
            data[chance.randrange(len(data))] = chance.choice((0, 1, 2, 3, 255, chance.randrange(256)))
        if chance.randrange(3) == 0:
            other = chance.choice(every)
            at = chance.randrange(14, 40)
            data = data[:at] + other[at:]
            data[12:14] = struct.pack(">H", max(len(data) - 14, 0))
        yield bytes(data)


def batches_of(data):
    """The datagrams, a few at a time: no more than a socket of the usual size has room for."""
    batch = []
    for datagram in data:
        if len(batch) == 16 or sum(map(len, batch)) + len(datagram) > 20_000:
            yield batch
            batch = []
        batch.append(datagram)
    yield batch


def counts_rightly(data, **limits):
    """What is wrong with what a peer prints that was sent these datagrams, or None.

    After every few of them a call is sent, and its answer awaited: so none was lost before a socket that is full. Peer
    1 stands in no view, and says at once that it does not lead.
    """
    batches = list(batches_of(data))
    taken = len(batches) + sum(is_taken(it, 1, PEERS) for it in data)
    with Ensemble(PEERS, VIEW) as it:
        it.start(1, turns=len(data) + (1 + IDLE_TURNS_EACH) * len(batches) + IDLE_TURNS, **limits)
        it.client.peer = 1
        for number, batch in enumerate(batches):
            for datagram in batch:
                it.client.socket.sendto(datagram, ("127.0.0.1", it.port + 1))
            if it.client.ask(GET, b"a", b"", patience=10) is None:
                return f"no answer after {number + 1} of {len(batches)} batches"
        ended = it.end(1)
    return differs(ended, (DONE, f"peer 1 frames {taken} refused {len(data) + len(batches) - taken}\n"))


def serves_in_noise(seed, seconds):
    """What is wrong with three peers that take hostile datagrams while a client writes and reads, or None."""
    chance, ends = random.Random(seed), threading.Event()
    bad = [it for it in noise(chance, 4000) if not any(is_taken(it, peer, 3) for peer in (1, 2, 3))]
    bad += [it for it in of_each_length() if not is_taken(it, 1, 3)]
    with Ensemble(3, (1, 2, 3)) as it:

        def throw():
            with socket.socket(socket.AF_INET, socket.SOCK_DGRAM) as thrower:
                while not ends.wait(0.001):
                    thrower.sendto(chance.choice(bad), ("127.0.0.1", it.port + chance.randint(1, 3)))

        it.start_all()
        thrower = threading.Thread(target=throw)
        thrower.start()
        try:
            return complaint_of_client(it.client, seconds)
        finally:
            ends.set()
            thrower.join()


def complaint_of_client(client, rounds):
    """What is wrong with what a client sees that is alone, or None: after a write that was answered `ok` it reads what
    it wrote, and after any other what it wrote or had before."""
    held = {"notfound"}
    for number in range(rounds):
        value = b"%d" % number
        name = over(client, b"k", value)
        held = {f"value {value.hex()}"} | (held if name != "ok" else set())
        found = get(client, b"k")
        if found not in held:
            return f"after {name} of {value!r} a get found {found}, not one of {held}"
        held = {found} if name == "ok" else held
    return None


def cases(long):
    chance = random.Random(55)
    for kind, bodies in BODIES.items():
        data = [it for body in bodies for it in [frame(kind, body), *changed_at_each_byte(frame(kind, body), long)]]
        yield f"kind {kind}", lambda data=data: counts_rightly(data)
    data = [it for kind, bodies in BODIES.items() for it in by_each_sender(kind, bodies[0])]
    yield "senders and receivers", lambda data=data: counts_rightly(data)
    yield "lengths", lambda: counts_rightly(list(of_each_length()))
    yield "kinds without a body", lambda: counts_rightly([spell_frame(kind, 2, 1) for kind in range(256)])
    yield "versions", lambda: counts_rightly([spell_frame(17, 2, 1, EPOCH, version=it) for it in range(256)])
    for number in range(40 if long else 4):
        data = list(noise(chance, 4000))
        yield f"noise {number}", lambda data=data: counts_rightly(data)
    for seed in range(20 if long else 2):
        yield f"a client in noise {seed}", lambda seed=seed: serves_in_noise(seed, 400 if long else 60)
