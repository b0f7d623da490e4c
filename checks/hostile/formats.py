"""The bytes of docs/formats.md: a writer and a reader for each, made from that page alone.

A reader raises `Wrong` with the name of the first fault from the left. What it reads are plain tuples and bytes: an
epoch is (count, proposer), a version (count, proposer, seq), an entry (key, version, digest).
"""
import hashlib
import struct
from typing import NamedTuple, Optional

# By version: the level of the segments, and the tags of nodes. Peers that serve keep trees of version two.
SEGMENT_LEVEL = {1: 3, 2: 5}
INNER_TAG = {1: 1, 2: 3}
SEGMENT_TAG = {1: 2, 2: 4}
# The last level of a position in a frame.
LAST_LEVEL = 5
MOST_PEERS, MOST_NUMBERS = 31, 63
FIRST_CLIENT = 32


def md5(data):
    return hashlib.md5(data).digest()


class Wrong(Exception):
    """Bytes that are no spelling."""

    @property
    def fault(self):
        return self.args[0]


class Object(NamedTuple):
    version: tuple
    stamp: tuple
    key: bytes
    value: Optional[bytes]


class Fact(NamedTuple):
    ballot: tuple
    epoch: tuple
    seq: int
    leader: int
    views: tuple
    change: tuple
    seal: Optional[bytes] = None


# Writers.


def spell_epoch(epoch):
    return struct.pack(">QI", *epoch)


def spell_version(version):
    return struct.pack(">QIQ", *version)


def spell_key(key):
    return bytes([len(key)]) + key


def spell_value(value):
    return struct.pack(">H", len(value)) + value


def spell_view(view):
    return bytes([len(view)]) + b"".join(struct.pack(">I", member) for member in view)


def spell_views(views):
    return bytes([len(views)]) + b"".join(map(spell_view, views))


def spell_position(position):
    return struct.pack(">BI", *position)


def spell_entry(entry):
    key, version, digest = entry
    return spell_key(key) + spell_version(version) + digest


def spell_object(it):
    content = b"\0" if it.value is None else b"\1" + spell_value(it.value)
    return spell_version(it.version) + spell_version(it.stamp) + spell_key(it.key) + content


def spell_fact(fact):
    parts = [bytes([1 if fact.seal is None else 2]), spell_epoch(fact.ballot), spell_epoch(fact.epoch)]
    parts += [struct.pack(">QI", fact.seq, fact.leader), spell_views(fact.views), bytes(fact.change[:1])]
    parts += [spell_view(view) for view in fact.change[1:]] + [fact.seal or b""]
    return b"".join(parts)


def opening_fact(view, seal=None):
    return Fact((0, 0), (0, 0), 0, 0, (tuple(view),), (0,), seal)


def spell_frame(kind, sender, receiver, body=b"", length=None, version=2):
    length = len(body) if length is None else length
    return struct.pack(">2sBBIIH", b"RE", version, kind, sender, receiver, length) + body


def entry_of(it):
    return it.key, it.version, md5(spell_object(it))


def inner_node(position, mask, digests, version=2):
    return bytes([INNER_TAG[version]]) + spell_position(position) + struct.pack(">H", mask) + b"".join(digests)


def segment_node(position, entries, version=2):
    head = bytes([SEGMENT_TAG[version]]) + spell_position(position) + struct.pack(">I", len(entries))
    return head + b"".join(map(spell_entry, entries))


def segment_of(key, version=2):
    """The index of the key's segment: the first 12 or 20 bits of its MD5."""
    bits = 4 * SEGMENT_LEVEL[version]
    return int.from_bytes(md5(key), "big") >> (128 - bits)


def build(entries, version=2):
    """The nodes of the plain tree of these entries, under their digests, and the digest of its root."""
    segments = {}
    for entry in sorted(entries):
        segments.setdefault(segment_of(entry[0], version), []).append(entry)
    return build_over(segments, version)


def build_over(segments, version=2):
    """The same of the entries of each segment, whichever stand there."""
    level = SEGMENT_LEVEL[version]
    nodes = {index: segment_node((level, index), held, version) for index, held in segments.items()}
    stored = {md5(node): node for node in nodes.values()}
    while level > 0:
        level -= 1
        children = {}
        for index, node in sorted(nodes.items()):
            children.setdefault(index // 16, {})[index % 16] = md5(node)
        nodes = {
            index: inner_node((level, index), sum(1 << child for child in below), below.values(), version)
            for index, below in children.items()
        }
        stored.update((md5(node), node) for node in nodes.values())
    root = nodes.get(0, inner_node((0, 0), 0, [], version))
    stored[md5(root)] = root
    return stored, md5(root)


def spell_backup(items, top=None):
    """The backup of entries, each with an object or None. The keys may stand in any order, as hostile ones do."""
    if top is None:
        top = build([entry for entry, _ in items], 2)[1]
    parts = [b"RB\1\2", top, struct.pack(">I", len(items))]
    for entry, it in items:
        parts += [spell_entry(entry), b"\0" if it is None else b"\1" + spell_object(it)]
    return b"".join(parts)


def spell_record(name, content):
    """A record of a log."""
    return b"\1" + bytes([len(name)]) + struct.pack(">Q", len(content)) + name + content + b"\1"


def spell_slot(serial, record, gate=1):
    return bytes([gate]) + struct.pack(">QH", serial, len(record)) + record


# Readers.


class Reader:
    """Reads fields from the left."""

    def __init__(self, data):
        self.data = data
        self.at = 0

    def take(self, count):
        if self.at + count > len(self.data):
            raise Wrong("Short")
        self.at += count
        return self.data[self.at - count : self.at]

    def number(self, size):
        return int.from_bytes(self.take(size), "big")

    def one_of(self, allowed, fault="BadTag"):
        found = self.number(1)
        if found not in allowed:
            raise Wrong(fault)
        return found

    def epoch(self):
        return self.number(8), self.number(4)

    def version(self):
        return *self.epoch(), self.number(8)

    def key(self):
        return self.take(self.one_of(range(1, 65), "KeyLength"))

    def option_key(self):
        length = self.one_of(range(65), "KeyLength")
        return self.take(length) if length else None

    def value(self):
        length = self.number(2)
        if length > 1024:
            raise Wrong("ValueLength")
        return self.take(length)

    def view(self):
        members = []
        for _ in range(self.one_of(range(1, 10), "BadView")):
            member = self.number(4)
            if not 1 <= member <= MOST_PEERS or (members and member <= members[-1]):
                raise Wrong("BadView")
            members.append(member)
        return tuple(members)

    def views(self):
        return tuple(self.view() for _ in range(self.one_of((1, 2), "BadView")))

    def position(self, last):
        level, index = self.one_of(range(last + 1), "Position"), self.number(4)
        if index >= 16**level:
            raise Wrong("Position")
        return level, index

    def entry(self):
        return self.key(), self.version(), self.take(16)

    def object(self):
        version, stamp, key = self.version(), self.version(), self.key()
        return Object(version, stamp, key, self.value() if self.one_of((0, 1)) else None)

    def fact(self, sealed=False):
        """A fact as it stands in a frame, or as it is saved."""
        form = self.one_of((1, 2) if sealed else (1,))
        ballot, epoch = self.epoch(), self.epoch()
        seq, leader, views = self.number(8), self.number(4), self.views()
        tag = self.one_of((0, 1, 2))
        change = (1, self.view()) if tag == 1 else (tag,)
        return Fact(ballot, epoch, seq, leader, views, change, self.take(16) if form == 2 else None)

    def entries(self, count):
        """Entries in strictly ascending order, which is tested as soon as a key was read."""
        entries = []
        for _ in range(count):
            key = self.key()
            if entries and key <= entries[-1][0]:
                raise Wrong("Order")
            entries.append((key, self.version(), self.take(16)))
        return entries

    def end(self):
        if self.at != len(self.data):
            raise Wrong("Trailing")


def read_saved_fact(data):
    reader = Reader(data)
    fact = reader.fact(sealed=True)
    reader.end()
    return fact


def read_object(data):
    reader = Reader(data)
    it = reader.object()
    reader.end()
    return it


def read_node(data, position, version=2):
    """The children of an inner node, by number, or the entries of a segment."""
    reader = Reader(data)
    is_segment = position[0] == SEGMENT_LEVEL[version]
    reader.one_of([(SEGMENT_TAG if is_segment else INNER_TAG)[version]])
    if (reader.number(1), reader.number(4)) != position:
        raise Wrong("Position")
    if is_segment:
        found = reader.entries(reader.number(4))
    else:
        mask = reader.number(2)
        found = {child: reader.take(16) for child in range(16) if mask >> child & 1}
    reader.end()
    return found


def read_frame(data):
    """The kind, the sender and the receiver of a frame."""
    reader = Reader(data)
    header = reader.take(14)
    letters, version, kind, sender, receiver, length = struct.unpack(">2sBBIIH", header)
    tests = {"Magic": letters == b"RE", "Version": version == 2, "Kind": 1 <= kind <= 19, "Length": length <= 4096}
    for fault, is_right in tests.items():
        if not is_right:
            raise Wrong(fault)
    reader.take(length)
    reader.end()
    if not (1 <= sender <= MOST_NUMBERS and 1 <= receiver <= MOST_NUMBERS):
        raise Wrong("Field")
    body = Reader(data[14:])
    BODIES[kind](body)
    body.end()
    return kind, sender, receiver


def read_given(body):
    tag = body.one_of((1, 2, 3))
    if tag == 1:
        body.take(16 * body.number(2).bit_count())
    elif tag == 2:
        body.entries(body.one_of(range(33)))
        body.one_of((0, 1))
    else:
        body.position(LAST_LEVEL)


def read_call(body):
    tag = body.one_of(range(1, 9))
    body.key()
    if tag == 3:
        body.version()
    if tag == 5:
        body.number(8)
    for _ in range({2: 1, 3: 1, 4: 1, 6: 2, 7: 1}.get(tag, 0)):
        body.value()


def read_reply(body):
    tag = body.one_of(range(1, 9))
    if tag in (1, 3):
        body.version()
    if tag == 1:
        body.value()


def read_optional(body, part):
    if body.one_of((0, 1)):
        part()


def read_cause(body):
    tag = body.one_of((1, 2, 3))
    if tag == 1:
        body.epoch()
    elif tag == 3:
        body.position(LAST_LEVEL)


# For each kind of frame the parts of its body, as calls of a reader.
BODIES = {
    1: lambda it: None,
    2: lambda it: it.fact(),
    3: lambda it: it.epoch(),
    4: lambda it: (it.epoch(), it.fact()),
    5: lambda it: (it.epoch(), read_cause(it)),
    6: lambda it: it.fact(),
    7: lambda it: (it.epoch(), it.number(8)),
    8: lambda it: (it.epoch(), it.number(8), it.key()),
    9: lambda it: (it.epoch(), it.number(8), it.key(), read_optional(it, it.entry), read_optional(it, it.object)),
    10: lambda it: (it.epoch(), it.object()),
    11: lambda it: (it.epoch(), it.key(), it.version()),
    12: lambda it: (it.epoch(), it.number(8)),
    13: lambda it: (it.epoch(), it.number(8)),
    14: lambda it: (it.epoch(), it.position(LAST_LEVEL), it.option_key()),
    15: lambda it: (it.epoch(), it.position(LAST_LEVEL), it.option_key(), it.one_of((0, 1)), read_given(it)),
    16: lambda it: it.fact(),
    17: lambda it: it.epoch(),
    18: lambda it: (it.number(8), read_call(it)),
    19: lambda it: (it.number(8), read_reply(it)),
}


def is_taken(data, me, peers):
    """Whether a peer takes these bytes as a frame: they decode, and come to it from another peer or from a client."""
    try:
        kind, sender, receiver = read_frame(data)
    except Wrong:
        return False
    from_peer = kind <= 17 and sender <= peers and sender != me
    return receiver == me and (from_peer or (kind == 18 and sender >= FIRST_CLIENT))


CAUSES = ("Short", "Trailing", "BadTag", "Order", "KeyLength", "Object", "Mismatch", "Top")
BACKUP_CAUSES = {fault: cause for cause, fault in enumerate(CAUSES, 1)}


def read_backup(data):
    """The entries of a backup, each with its object or None."""
    reader = Reader(data)
    if reader.take(2) != b"RB":
        raise Wrong("BadTag")
    reader.one_of((1,))
    reader.one_of((2,))
    top, items = reader.take(16), []
    for _ in range(reader.number(4)):
        key = reader.key()
        if items and key <= items[-1][0][0]:
            raise Wrong("Order")
        entry = key, reader.version(), reader.take(16)
        it = None
        if reader.one_of((0, 1)):
            try:
                it = reader.object()
            except Wrong as wrong:
                raise wrong if wrong.fault == "Short" else Wrong("Object")
        items.append((entry, it))
    reader.end()
    if any(it is not None and entry_of(it) != entry for entry, it in items):
        raise Wrong("Mismatch")
    if build([entry for entry, _ in items], 2)[1] != top:
        raise Wrong("Top")
    return items


def read_slots(data):
    """The serial number and the record of a slot file's current slot, or None."""
    slots = []
    for start in (0, 512):
        head = data[start : start + 11]
        if len(head) == 11 and head[0] == 1:
            serial, length = struct.unpack(">QH", head[1:])
            if length <= 480 and start + 11 + length <= len(data):
                slots.append((serial, data[start + 11 : start + 11 + length]))
    return max(slots, key=lambda slot: slot[0], default=None)


def read_log(data):
    """The contents of a log by name, and the length of its whole records."""
    contents, at = {}, 0
    while data[at : at + 1] == b"\1" and at + 10 <= len(data):
        name, content = data[at + 1], int.from_bytes(data[at + 2 : at + 10], "big")
        end = at + 10 + name + content
        if data[end : end + 1] != b"\1":
            break
        contents[data[at + 10 : at + 10 + name]] = data[at + 10 + name : end]
        at = end + 1
    return contents, at


def read_tree(contents, root, version=2):
    """The entries under this root by key, or None where a node on the way does not verify."""
    entries, waiting = {}, [((0, 0), root)]
    while waiting:
        (level, index), digest = waiting.pop()
        node = contents.get(digest)
        if node is None or md5(node) != digest:
            return None
        try:
            found = read_node(node, (level, index), version)
        except Wrong:
            return None
        if isinstance(found, dict):
            waiting += [((level + 1, 16 * index + child), below) for child, below in found.items()]
        else:
            entries.update((entry[0], entry) for entry in found)
    return entries


def read_either_tree(contents, root):
    """The entries under this root by key, in whichever version it verifies, or None where it verifies in neither."""
    trees = (read_tree(contents, root, version) for version in SEGMENT_LEVEL)
    return next((tree for tree in trees if tree is not None), None)
