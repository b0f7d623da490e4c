"""Hostile scripts of a root ensemble: texts that are cut or changed, and runs in which stores fail and lie.

What a text that is no script has to print is what a reader of docs/roots.md says. A script that runs has to end with
status 0, and the histories of its slots and keys have to be legal, by the test of docs/runs.md.
"""
import random

from formats import md5, spell_view
from running import DONE, LIMIT, SCHEDULE, TOP, differs, run
from schedules import SPLINTERS, hostile_line
from texts import LINES, PEER, Bad, Call, Printed, Reading, fault, members, number, read_inner, read_words, take_lines

SLOTS = 64
NOT_IN_A_ROOT = (b"call", b"upgrade", b"deepen")
WORDS = (
    "at open look route root r 0 1 2 3 15 36 63 64 calm tick change stop start revert fail spoil damage inner upgrade "
    "deepen call get over once update 6b 616263 6B - 01 18446744073709551616 taken"
).split() + [""]


class RootReading(Reading):
    """The lines of a root script that were read. The key of a call on a slot is the number of the slot."""

    def first_lines(self, line):
        if self.lines > 0:
            return super().first_lines(line)
        if line != b"root 1":
            raise Bad(3)

    def event(self, line):
        words = line.split(b" ")
        read = {b"at": self.at, b"open": self.open, b"look": self.look, b"route": self.route}.get(words[0])
        if read is None:
            raise Bad(4)
        read(words)

    def at(self, words):
        if len(words) < 3:
            raise Bad(5)
        name, event = words[2], words[2:]
        if name not in LINES and name not in (b"calm", b"change") or name in NOT_IN_A_ROOT:
            raise Bad(4)
        least = {b"change": 3, b"calm": 1, b"inner": 5}.get(name, 1 + len(LINES.get(name, ())))
        if len(event) < least or b"" in words or (len(event) > least and name not in (b"change", b"calm")):
            raise Bad(5)
        if words[1] != b"r":
            number(words[1], 0, SLOTS)
        if name == b"change":
            asked = words[1], self.events + 1, PEER(event[1], self.peers)
            members(event[2:], self.peers, 9)
            self.changes.append(asked)
        elif name == b"calm":
            members(event[1:], self.peers)
        elif name == b"inner":
            read_inner(event, self.peers)
        else:
            read_words(event, LINES[name], self.peers)

    def add(self, name, key, command, arguments):
        if name in self.calls:
            raise Bad(9)
        self.calls[name] = Call(name, key, command, arguments, self.events + 1)

    def open(self, words):
        if len(words) < 5 or b"" in words:
            raise Bad(5)
        PEER(words[1], self.peers)
        name, slot = number(words[2]), number(words[3], 0, SLOTS)
        self.add(name, slot, "once", (spell_view(members(words[4:], self.peers, 9)),))

    def look(self, words):
        if len(words) != 4 or b"" in words:
            raise Bad(5)
        PEER(words[1], self.peers)
        self.add(number(words[2]), number(words[3], 0, SLOTS), "get", ())

    def route(self, words):
        super().call(words)


def read_root(data):
    reading = RootReading()
    told, _ = take_lines(reading, data)
    if told is None and reading.lines < 3:
        told = f"schedule {reading.lines + 1} 3\n"
    return reading, told


def complaint_of_root(reading, text):
    """What is wrong with the text of a run, or None."""
    slots = sorted({call.key for call in reading.calls.values() if isinstance(call.key, int)})
    keys = sorted({call.key for call in reading.calls.values() if isinstance(call.key, bytes)})
    printed = Printed(reading, slots + keys)
    wanted = [b"slot %d" % slot for slot in slots] + [b"history " + key.hex().encode() for key in keys]
    lines = text.encode().split(b"\n")[:-1]
    heads, histories = lines[: len(lines) - len(wanted)], lines[len(lines) - len(wanted) :]
    try:
        for line in heads:
            words = line.split(b" ")
            if words[0] == b"change":
                asked = words[1], number(words[2]), number(words[3])
                if asked not in reading.changes or len(words) != 5 or words[4] not in (b"taken", b"refused"):
                    raise Bad(14)
                reading.changes.remove(asked)
            else:
                printed.line(line)
    except Bad as bad:
        return f"a printed line with cause {bad.cause}: {line}"
    for key, head, line in zip(printed.keys, wanted, histories):
        if not (line + b" ").startswith(head + b" "):
            return f"{line} does not begin with {head}"
        found = fault(printed, key, [number(word) for word in line.split(b" ")[2:]])
        if found:
            return f"{line} violates clause {found[0]} at call {found[1]}"
    return None


def ends_rightly(data):
    """What is wrong with the run of these bytes as a root script, or None."""
    data = data.encode("latin-1") if isinstance(data, str) else data
    reading, text = read_root(data)
    status, got = run("ensemble root", data)
    if text is None:
        return complaint_of_root(reading, got) if status == DONE else f"wanted status 0, got {status}: {got}"
    return differs((status, got), (LIMIT if text.startswith("limit") else SCHEDULE, text))


def hostile_script(seed, events):
    """A script in which slots are opened, looked at and used while stores fail and lie, and peers stop."""
    chance = random.Random(seed)
    peers = chance.choice((1, 3, 3))
    view = " ".join(map(str, range(1, peers + 1)))
    keys = ["6b", "616263", "00", "0a"]
    slots = [md5(bytes.fromhex(key))[0] >> 2 for key in keys]
    lines = ["root 1", f"peers {peers}", f"view {view}", "at r tick 1 6", "at r calm"]
    for call in range(1, events):
        slot, peer = chance.choice(slots), chance.randint(1, peers)
        some = " ".join(map(str, sorted(chance.sample(range(1, peers + 1), chance.randint(1, peers)))))
        event = hostile_line(chance, peers, call)
        while event.startswith(("call", "upgrade", "deepen")):
            event = hostile_line(chance, peers, call)
        where = chance.choice(("r", slot, slot))
        lines.append(
            chance.choice(
                3 * [f"open {peer} {call} {slot} {some}"]
                + 2 * [f"look {peer} {call} {slot}", f"at {where} calm", f"at {slot} tick {peer} 6", "at r tick 1 6"]
                + 4 * [f"route {peer} {call} {chance.choice(('get', 'delete', 'over'))} {chance.choice(keys)}"]
                + 4 * [f"at {where} {event}"]
            )
        )
        if lines[-1].startswith("route") and " over " in lines[-1]:
            lines[-1] += f" {chance.randrange(256):02x}"
    return "\n".join(lines) + "\n"


def with_other_words(chance, text, count):
    for _ in range(count):
        lines = [line.split(" ") for line in text.splitlines()]
        line = chance.choice(lines)
        line[chance.randrange(len(line))] = chance.choice(WORDS)
        if chance.randrange(3) == 0:
            lines.insert(chance.randrange(len(lines)), list(chance.choice(lines)))
        yield "".join(" ".join(line) + "\n" for line in lines)


def cases(long):
    chance = random.Random(60)
    text = (TOP / "examples" / "a-root" / "script").read_text()
    found = [text[:size] for size in range(0, len(text), 1 if long else 3)] + [text]
    for at in chance.sample(range(len(text)), len(text) if long else 40):
        found.append(text[:at] + chance.choice(SPLINTERS).decode("latin-1") + text[at + 1 :])
    found += with_other_words(chance, text, 2000 if long else 80)
    found += [hostile_script(seed, 80) for seed in range(2000 if long else 60)]
    for data in found:
        yield repr(data[-60:]), lambda data=data: ends_rightly(data)
