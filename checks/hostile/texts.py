"""Schedules, scripts and records: a reader of each, made from docs/schedules.md alone, and the test of histories of
docs/runs.md. They say what the program has to print of a text that is not one, and what it must never print of one
that is.
"""
import re
from collections import Counter
from typing import NamedTuple, Optional

MOST_LINES, LONGEST_LINE, LONGEST_PRINTED_LINE = 200_000, 4_400, 8_388_608
U32, U64 = 2**32, 2**64
NUMBER = re.compile(rb"0|[1-9][0-9]*")
BYTES = re.compile(rb"(?:[0-9a-f][0-9a-f])+")
COMPLETED = ("value", "notfound", "ok", "failed")
REFUSED = ("unavailable", "busy", "lost")


class Bad(Exception):
    """The cause for which a word or a line is bad."""

    @property
    def cause(self):
        return self.args[0]


class Call(NamedTuple):
    number: int
    key: bytes
    command: str
    arguments: tuple
    event: int


def number(word, least=0, below=U64, cause=6):
    if not NUMBER.fullmatch(word) or not least <= int(word) < below:
        raise Bad(cause)
    return int(word)


def string(word, least=0, most=1024, cause=7):
    """Bytes, where a dash is none."""
    if word == b"-":
        found = b""
    elif BYTES.fullmatch(word):
        found = bytes.fromhex(word.decode())
    else:
        raise Bad(cause)
    if not least <= len(found) <= most:
        raise Bad(cause)
    return found


def version(word, cause=6):
    parts = word.split(b".")
    if len(parts) != 3:
        raise Bad(cause)
    return tuple(number(part, 0, below, cause) for part, below in zip(parts, (U64, U32, U64)))


def one_of(word, words, cause=6):
    if word not in words:
        raise Bad(cause)
    return word.decode()


def members(words, peers, most=31):
    found = [number(word, 1, peers + 1, 8) for word in words]
    if found != sorted(set(found)) or len(found) > most:
        raise Bad(8)
    return tuple(found)


# The arguments of the commands, and those of the lines with a fixed number of words. The reader of a word takes the
# word and how many peers there are.
PEER = lambda word, peers: number(word, 1, peers + 1, 8)  # noqa: E731
ID = NUMBER_ARGUMENT = lambda word, peers: number(word)  # noqa: E731
KEY = lambda word, peers: string(word, 1, 64)  # noqa: E731
VALUE = lambda word, peers: string(word)  # noqa: E731
VERSION = lambda word, peers: version(word)  # noqa: E731
CONTENT = lambda word, peers: b"" if word == b"-" else string(word, 1, 2000)  # noqa: E731

COMMANDS = {
    b"get": (),
    b"once": (VALUE,),
    b"update": (VERSION, VALUE),
    b"append": (VALUE,),
    b"add": (NUMBER_ARGUMENT,),
    b"swap": (VALUE, VALUE),
    b"over": (VALUE,),
    b"delete": (),
}

LINES = {
    b"tick": (PEER, lambda word, peers: number(word, 1, 101)),
    b"deliver": (lambda word, peers: number(word, 1),),
    b"pass": (PEER, PEER),
    b"lose": (PEER, PEER),
    b"stop": (PEER,),
    b"start": (PEER,),
    b"upgrade": (PEER,),
    b"deepen": (),
    b"spoil": (PEER, KEY, CONTENT),
    b"damage": (PEER, KEY, CONTENT),
    b"inner": (PEER, lambda word, peers: number(word, 0, 5), ID, CONTENT),
    b"revert": (PEER, lambda word, peers: number(word, 1, 1_000_001)),
    b"fail": (
        PEER,
        lambda word, peers: one_of(word, (b"fact", b"tree", b"backend")),
        lambda word, peers: one_of(word, (b"old", b"new")),
    ),
}

SCRIPT_LINES = {name: LINES[name] for name in (b"tick", b"stop", b"start")} | {
    b"turn": (lambda word, peers: number(word, 1, 100_001),)
}


def read_words(words, readers, peers):
    if len(words) != len(readers) + 1 or b"" in words:
        raise Bad(5)
    return tuple(read(word, peers) for read, word in zip(readers, words[1:]))


def read_inner(words, peers):
    """The index of an inner node is tested against its level."""
    if len(words) != 5 or b"" in words:
        raise Bad(5)
    peer, level = PEER(words[1], peers), number(words[2], 0, 5)
    return peer, level, number(words[3], 0, 16**level), CONTENT(words[4], peers)


class Reading:
    """The lines of a schedule that were read, or, of a script, those of the peers of a cluster."""

    def __init__(self, peers=0, is_script=False):
        self.form, self.peers, self.view = 2 if is_script else 0, peers, ()
        self.is_script = is_script
        self.lines = 0
        self.calls, self.changes, self.reverted, self.views = {}, [], set(), []

    def first_lines(self, line):
        words = line.split(b" ")
        if self.lines == 0 and words[0] == b"ensemble" and words[1:] in ([b"1"], [b"2"], [b"3"]):
            self.form = int(words[1])
        elif self.lines == 1 and words[0] == b"peers" and len(words) == 2:
            self.peers = number(words[1], 1, 32, 3)
        elif self.lines == 2 and words[0] == b"view" and 2 <= len(words) <= 10:
            try:
                self.view = members(words[1:], self.peers)
            except Bad:
                raise Bad(3)
            self.views.append(self.view)
        else:
            raise Bad(3)

    @property
    def events(self):
        return self.lines - (0 if self.is_script else 3)

    def call(self, words):
        if len(words) < 4:
            raise Bad(5)
        if words[3] not in COMMANDS:
            raise Bad(4)
        readers = COMMANDS[words[3]]
        if len(words) != 5 + len(readers) or b"" in words:
            raise Bad(5)
        PEER(words[1], self.peers)
        name, key = number(words[2]), KEY(words[4], self.peers)
        arguments = tuple(read(word, self.peers) for read, word in zip(readers, words[5:]))
        if name in self.calls:
            raise Bad(9)
        self.calls[name] = Call(name, key, words[3].decode(), arguments, self.events + 1)

    def event(self, line):
        words = line.split(b" ")
        lines = SCRIPT_LINES if self.is_script else LINES
        if words[0] == b"call":
            self.call(words)
        elif words[0] == b"change":
            if len(words) < 3 or b"" in words:
                raise Bad(5)
            peer, view = PEER(words[1], self.peers), members(words[2:], self.peers, 9)
            self.views.append(view)
            self.changes.append((self.events + 1, peer))
        elif words[0] == b"calm" and not self.is_script:
            if b"" in words:
                raise Bad(5)
            members(words[1:], self.peers)
        elif words[0] == b"inner" and not self.is_script:
            read_inner(words, self.peers)
        elif words[0] in lines:
            found = read_words(words, lines[words[0]], self.peers)
            if words[0] == b"revert":
                self.reverted.add(found[0])
        else:
            raise Bad(4)

    def take(self, line):
        if len(line) > LONGEST_LINE:
            raise Bad(1)
        if self.lines < 3 and not self.is_script:
            self.first_lines(line)
        else:
            self.event(line)
        self.lines += 1


def take_lines(reading, data, is_last=lambda line: False):
    """Takes the lines of a text up to the one that is the last. Returns what the program prints of a text that has a
    bad line or too many, and what follows the last line."""
    while data:
        line, end, rest = data.partition(b"\n")
        if reading.lines == MOST_LINES and not (end and is_last(line)):
            return "limit lines 200000\n", b""
        try:
            if not end:
                raise Bad(1 if len(line) > LONGEST_LINE else 2)
            if is_last(line) and (reading.is_script or reading.lines >= 3):
                return None, rest
            reading.take(line)
        except Bad as bad:
            return f"schedule {reading.lines + 1} {bad.cause}\n", b""
        data = rest
    return None, None


def premise(reading):
    """The line of the first view that does not keep a majority of members that are never put back, or None."""
    for view in reading.views if reading.form == 1 else ():
        back = [member for member in view if member in reading.reverted]
        if 2 * len(back) >= len(view):
            return f"premise {' '.join(map(str, view))} reverted {' '.join(map(str, back))}\n"
    return None


def read_schedule(data):
    """A schedule, and what the program prints of a text that is none: `schedule LINE CAUSE` or the limit of lines."""
    reading = Reading()
    told, _ = take_lines(reading, data)
    if told is None and reading.lines < 3:
        told = f"schedule {reading.lines + 1} 3\n"
    return reading, told


def read_script(data, peers):
    reading = Reading(peers, is_script=True)
    told, _ = take_lines(reading, data)
    return reading, told


# Printed texts.


class Printed:
    """The lines that a run of a schedule printed, as a record has them behind `answers`."""

    def __init__(self, reading, keys=None):
        self.reading = reading
        self.answers, self.told_changes, self.histories = {}, set(), []
        self.keys = sorted({call.key for call in reading.calls.values()}) if keys is None else keys
        self.last = 0

    def line(self, line):
        words = line.split(b" ")
        if words[0] not in (b"answer", b"change", b"history") or (self.histories and words[0] != b"history"):
            raise Bad(11)
        if b"" in words:
            raise Bad(12)
        {b"answer": self.answer, b"change": self.change, b"history": self.history}[words[0]](words)

    def answer(self, words):
        if len(words) < 4:
            raise Bad(12)
        extra = {b"value": 2, b"ok": 1}.get(words[3], 0)
        if words[3].decode("latin-1") not in (*COMPLETED, *REFUSED, "timeout"):
            raise Bad(13)
        if len(words) != 4 + extra:
            raise Bad(12)
        name, event = number(words[1], cause=13), number(words[2], cause=13)
        stamp = version(words[4], 13) if extra else None
        value = string(words[5], cause=13) if extra == 2 else None
        if name not in self.reading.calls or name in self.answers:
            raise Bad(14)
        self.follow(event, self.reading.calls[name].event)
        self.answers[name] = words[3].decode(), stamp, value, event

    def change(self, words):
        if len(words) != 4:
            raise Bad(12)
        asked = number(words[1], cause=13), number(words[2], cause=13)
        one_of(words[3], (b"taken", b"refused"), 13)
        if asked not in self.reading.changes or asked in self.told_changes:
            raise Bad(14)
        self.follow(asked[0], 0)
        self.told_changes.add(asked)

    def follow(self, event, least):
        if not max(least, self.last) <= event <= self.reading.events:
            raise Bad(15)
        self.last = event

    def history(self, words):
        if len(words) < 2:
            raise Bad(12)
        key, names = string(words[1], 1, 64, 13), [number(word, cause=13) for word in words[2:]]
        if len(self.histories) == len(self.keys) or self.keys[len(self.histories)] != key:
            raise Bad(16)
        self.histories.append(names)


def read_printed(printed, data, first):
    """Takes printed lines, the first of which has this number. Returns the line of the first bad one, or None."""
    while data:
        line, end, data = data.partition(b"\n")
        try:
            if not end or len(line) > LONGEST_PRINTED_LINE:
                raise Bad(10)
            printed.line(line)
        except Bad as bad:
            return f"schedule {first} {bad.cause}\n"
        first += 1
    if len(printed.histories) < len(printed.keys):
        return f"schedule {first} 16\n"
    return None


def read_record(data):
    """A record, and what the program prints of a text that is none."""
    reading = Reading()
    told, rest = take_lines(reading, data, is_last=lambda line: line == b"answers")
    if told is None and rest is None:
        told = f"schedule {reading.lines + 1} {3 if reading.lines < 3 else 16}\n"
    printed = Printed(reading)
    if told is None:
        told = read_printed(printed, rest, reading.lines + 2)
    return printed, told


# Histories.


class Register(NamedTuple):
    """What a register may hold: a value under a stamp, where None is a stamp that nothing has shown yet."""

    value: Optional[bytes] = None
    stamp: Optional[tuple] = None
    excluded: frozenset = frozenset()


ABSENT = Register()


def with_stamp(register, stamp, shown):
    """The register if its stamp is this one, or None if it cannot be."""
    if register.stamp is None and stamp not in register.excluded and stamp not in shown:
        return register._replace(stamp=stamp, excluded=frozenset())
    return register if register.stamp == stamp else None


def written(command, arguments, value):
    """What a command other than an update writes over a value, or None if it does not apply."""
    if command == "once":
        return arguments[0] if value is None else None
    if command in ("over", "delete"):
        return arguments[0] if arguments else b""
    if value is None or command == "get":
        return None
    if command == "append":
        return value + arguments[0] if len(value + arguments[0]) <= 1024 else None
    if command == "add":
        total = int.from_bytes(value, "big") + arguments[0]
        return total.to_bytes(8, "big") if len(value) == 8 and total < U64 else None
    return arguments[1] if value == arguments[0] else None


def outcomes(call, register, shown):
    """Each register on which this call may have come, with the value that it writes, or None if it writes nothing."""
    if call.command != "update":
        return [(register, written(call.command, call.arguments, register.value))]
    stamp, value = call.arguments
    found = [] if register.value is None else [(with_stamp(register, stamp, shown), value)]
    other = register
    if register.value is not None and register.stamp is None:
        other = register._replace(excluded=register.excluded | {stamp})
    if register.value is None or register.stamp != stamp:
        found.append((other, None))
    return [(it, write) for it, write in found if it is not None]


def step(call, answer, register, shown):
    """The registers that may come after a call with this answer, or with none that says what became of it."""
    reply, stamp, value = answer[:3] if answer and answer[0] in COMPLETED else (None, None, None)
    for before, write in outcomes(call, register, shown):
        after = ABSENT if call.command == "delete" else Register(write, stamp if reply == "ok" else None)
        if reply is None:
            yield before if write is None else after
        elif reply == "ok" and write is not None and stamp not in shown and stamp != before.stamp:
            yield after
        elif reply == "failed" and write is None and call.command != "get":
            yield before
        elif reply == "notfound" and call.command == "get" and before.value is None:
            yield before
        elif reply == "value" and call.command == "get" and before.value == value:
            seen = with_stamp(before, stamp, shown)
            if seen:
                yield seen


def first_astray(calls, answers, order):
    """The first call at which an order stops being a run of one register, or None."""
    registers, shown = {ABSENT}, set()
    for name in order:
        registers = {after for it in registers for after in step(calls[name], answers.get(name), it, shown)}
        if not registers:
            return name
        if name in answers and answers[name][1]:
            shown.add(answers[name][1])
    return None


def fault(printed, key, order):
    """The first clause that a history violates, with the call at which it does, or None."""
    calls, answers = printed.reading.calls, printed.answers
    on_key = {name for name, call in calls.items() if call.key == key}
    replies = {name: answers[name][0] for name in on_key if name in answers}
    times = Counter(order)
    for name in order:
        if times[name] > 1 or name not in on_key:
            return 1, name
    for name in calls:
        reply = replies.get(name)
        if (reply in COMPLETED and name not in times) or (reply in REFUSED and name in times):
            return 2, name
    astray = first_astray(calls, answers, order)
    if astray is not None:
        return 3, astray
    for place, name in enumerate(order):
        behind = [other for other in order[place + 1 :] if replies.get(other) in COMPLETED]
        if any(answers[other][3] < calls[name].event for other in behind):
            return 4, name
    return None


def report(printed):
    """The report of an audit."""
    found = [(key, fault(printed, key, order)) for key, order in zip(printed.keys, printed.histories)]
    faults = [f'{{"clause":{it[0]},"id":{it[1]},"key":"{key.hex()}"}}' for key, it in found if it]
    return f'{{"faults":[{",".join(faults)}],"keys":{len(found)},"legal":{len(found) - len(faults)}}}\n'


def complaint_of_run(reading, text):
    """What is wrong with the text that a run of a schedule printed, or None: its lines are those of a record, each
    change that a running peer may have been asked for is told once, and every history is legal."""
    printed = Printed(reading)
    told = read_printed(printed, text.encode(), 1)
    if told is not None:
        return f"no printed text: {told.strip()}"
    for key, order in zip(printed.keys, printed.histories):
        found = fault(printed, key, order)
        if found:
            return f"the history of {key.hex()} violates clause {found[0]} at call {found[1]}"
    return None
