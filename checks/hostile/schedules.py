"""Hostile schedules: texts that are cut or changed, and runs in which every store fails and every line is a trap.

What a text that is no schedule has to print is what the reader of docs/schedules.md says. A schedule that runs has to
end with status 0, and its histories have to be legal, by the test of docs/runs.md.
"""
import random

from running import DONE, LIMIT, PREMISE, SCHEDULE, TOP, differs, run
from texts import complaint_of_run, premise, read_schedule

# Five peers; peer 2 acknowledges a write, loses its tree, and counts again only once it has synced.
REVERTED = """\
ensemble 1
peers 5
view 1 2 3 4 5
tick 1 6
calm
call 1 1 over 6b 76
pass 1 2
pass 1 3
pass 2 1
pass 3 1
pass 1 2
stop 2
revert 2 1
start 2
pass 2 1
pass 1 3
pass 3 1
lose 1 4
lose 1 5
stop 1
tick 2 6
calm
call 2 2 get 6b
calm
"""

# A view is replaced by another one that shares no peer with it.
CHANGED = """\
ensemble 1
peers 6
view 1 2 3
tick 1 6
calm
call 1 1 over 6b 76
calm
change 1 4 5 6
calm
stop 1
tick 2 6
calm
call 2 2 get 6b
calm
tick 2 1
calm
tick 4 6
calm
call 4 3 get 6b
calm
"""

# The trees of three peers migrate, of which one has a seal by then, and serve on.
DEEPENED = """\
ensemble 1
peers 3
view 1 2 3
tick 1 6
calm
call 1 1 over 6b 76
call 1 2 over 6c 77
calm
upgrade 2
stop 2
start 2
tick 1 6
calm
tick 1 1
calm
stop 1
stop 2
stop 3
deepen
deliver 1
start 1
start 2
start 3
tick 2 6
calm
call 2 3 get 6b
call 2 4 get 6c
calm
"""

TEXTS = {
    REVERTED: "answer 1 14 ok 1.1.1\nanswer 2 21 value 1.1.1 76\nhistory 6b 1 2\n",
    CHANGED: "answer 1 4 ok 1.1.1\nchange 5 1 taken\nanswer 2 11 value 1.1.1 76\nanswer 3 17 value 1.1.1 76\n"
    "history 6b 1 2 3\n",
}

THREE = "ensemble 1\npeers 3\nview 1 2 3\n"
LEADS = THREE + "tick 1 6\ncalm\n"

# Lines at and beyond each limit, with the line of the schedule and the cause; or None where the schedule runs.
EDGES = [
    ("call 1 18446744073709551615 get 6b", None),
    ("call 1 18446744073709551616 get 6b", 6),
    ("call 1 1 get " + 64 * "6b", None),
    ("call 1 1 get " + 65 * "6b", 7),
    ("call 1 1 over 6b " + 1024 * "76", None),
    ("call 1 1 over 6b " + 1025 * "76", 7),
    ("call 1 1 swap 6b " + 1024 * "76" + " " + 1024 * "77", None),
    ("call 1 1 swap 6b - -", None),
    ("call 1 1 add 6b 18446744073709551615", None),
    ("call 1 1 add 6b 18446744073709551616", 6),
    ("call 1 1 update 6b 18446744073709551615.4294967295.18446744073709551615 -", None),
    ("call 1 1 update 6b 18446744073709551616.1.1 -", 6),
    ("call 1 1 update 6b 1.4294967296.1 -", 6),
    ("call 1 1 update 6b 1.1.18446744073709551616 -", 6),
    ("call 1 1 get 6b\0", 7),
    ("call 1 1 get 6b\r", 7),
    ("\ttick 1 1", 4),
    ("tick 1 100", None),
    ("tick 1 101", 6),
    ("tick 1 0", 6),
    ("tick 3 1", None),
    ("tick 0 1", 8),
    ("tick 4 1", 8),
    ("tick 4294967297 1", 8),
    ("tick 18446744073709551617 1", 8),
    ("deliver 1", None),
    ("deliver 0", 6),
    ("deliver 18446744073709551615", None),
    ("deliver 18446744073709551616", 6),
    ("deliver " + 4000 * "9", 6),
    ("revert 1 1000000", None),
    ("revert 1 1000001", 6),
    ("spoil 1 6b " + 2000 * "00", None),
    ("spoil 1 6b " + 2001 * "00", 7),
    ("spoil 1 6b -", None),
    ("damage 1 6b " + 2000 * "ff", None),
    ("damage 1 6b " + 2001 * "ff", 7),
    ("inner 1 0 0 00", None),
    ("inner 1 0 1 00", 6),
    ("inner 1 4 65535 -", None),
    ("inner 1 4 65536 -", 6),
    ("inner 1 5 0 00", 6),
    ("fail 1 fact old", None),
    ("fail 1 facts old", 6),
    ("fail 1 fact olds", 6),
    ("calm 1 2 3", None),
    ("calm 1 3 2", 8),
    ("change 1 1 2 3", None),
    ("change 1 1 1", 8),
    ("x" * 4400, 4),
    ("x" * 4401, 1),
]

WORDS = (
    "ensemble peers view call tick deliver pass lose calm change stop start upgrade deepen spoil damage inner revert "
    "fail turn answers get once update append add swap over delete fact tree backend old new "
    "0 1 2 3 4 5 6 7 9 31 32 63 64 100 101 01 -1 +1 1.1.1 0.0.0 1.1 - 6b 6B 6b0 00 ff 76 18446744073709551615 18446744073709551616"
).split() + [""]
SPLINTERS = [b" ", b"\n", b"\0", b"\r", b"\xff", b"0", b"9", b"-", b"g", b"A", b"."]


def ends_rightly(data):
    """What is wrong with the replay of these bytes, or None."""
    data = data.encode() if isinstance(data, str) else data
    reading, text = read_schedule(data)
    status, got = run("ensemble replay", data)
    if text is None:
        text = premise(reading)
        if text is None:
            return complaint_of_run(reading, got) if status == DONE else f"wanted status 0, got {status}: {got}"
        return differs((status, got), (PREMISE, text))
    return differs((status, got), (LIMIT if text.startswith("limit") else SCHEDULE, text))


def has_text(data, wanted):
    return differs(run("ensemble replay", data.encode()), (DONE, wanted))


def prefixes(text):
    """Each prefix of a text."""
    return [text[:size] for size in range(len(text) + 1)]


def with_other_bytes(chance, text, count):
    """Texts of which one byte was changed, removed or doubled."""
    data = text.encode()
    for _ in range(count):
        at = chance.randrange(len(data))
        middle = chance.choice([*SPLINTERS, b"", data[at : at + 1] * 2])
        yield data[:at] + middle + data[at + 1 :]


def with_other_words(chance, text, count):
    """Texts of which some words and lines were changed, removed, doubled or exchanged."""
    for _ in range(count):
        lines = [line.split(" ") for line in text.splitlines()]
        for _ in range(chance.choice((1, 1, 1, 2, 4))):
            line = chance.choice(lines)
            at = chance.randrange(len(line))
            kind = chance.randrange(6)
            if kind < 2:
                line[at] = chance.choice(WORDS)
            elif kind == 2:
                line.insert(at, chance.choice(WORDS))
            elif kind == 3 and len(line) > 1:
                del line[at]
            elif kind == 4:
                lines.insert(chance.randrange(len(lines)), list(chance.choice(lines)))
            elif len(lines) > 1:
                lines.remove(line)
        yield "".join(" ".join(line) + "\n" for line in lines)


def deepening(peers):
    """Events in which all peers stop, and their trees migrate unless they did so before."""
    every = range(1, peers + 1)
    return [f"stop {peer}" for peer in every] + ["deepen"] + [f"start {peer}" for peer in every]


def with_failures(text, form):
    """The schedule with one failing write: of each store of each peer, before each event in turn."""
    lines = text.splitlines(keepends=True)
    peers = int(lines[1].split()[1])
    lines[0] = f"ensemble {form}\n"
    for at in range(3, len(lines)):
        for peer in range(1, peers + 1):
            for store in ("fact", "tree", "backend"):
                for left in ("old", "new"):
                    yield "".join([*lines[:at], f"fail {peer} {store} {left}\n", *lines[at:]])


def hostile_line(chance, peers, calls):
    """An event that something goes wrong in, or a call in the middle of it."""
    peer, other = chance.randint(1, peers), chance.randint(1, peers)
    key = chance.choice(("6b", "6c"))
    command = chance.choice(("get", "over", "once", "append", "delete", "swap", "add", "update"))
    arguments = {
        "over": f" {chance.randrange(256):02x}",
        "once": f" {chance.randrange(256):02x}",
        "append": " 00",
        "swap": " - 61",
        "add": " 1",
        "update": f" {chance.randint(1, 3)}.{peer}.{chance.randint(1, 3)} 75",
    }
    bad = chance.choice(("-", "00", "ff" * 60))
    members = sorted(chance.sample(range(1, peers + 1), chance.randint(1, peers)))
    return chance.choice(
        12 * [f"call {peer} {calls} {command} {key}{arguments.get(command, '')}"]
        + 8 * ["calm"]
        + 5 * [f"tick {peer} {chance.choice((1, 6, 8))}"]
        + 3 * [f"start {peer}", f"pass {peer} {other}"]
        + 2 * [f"fail {peer} {chance.choice(('fact', 'tree', 'backend'))} {chance.choice(('old', 'new'))}"]
        + 2 * [f"deliver {chance.randint(1, 200)}", f"spoil {peer} {key} {bad}", f"damage {peer} {key} {bad}"]
        + [f"stop {peer}", f"revert {peer} {chance.randint(1, 4)}", f"inner {peer} {chance.randint(0, 4)} 0 {bad}"]
        + [f"lose {peer} {other}", f"upgrade {peer}", "deepen", "calm " + " ".join(map(str, members))]
        + [f"change {peer} " + " ".join(map(str, members))]
    )


def hostile_schedule(seed, events):
    """A schedule in which stores fail, lie and are put back, peers stop, and views change."""
    chance = random.Random(seed)
    peers = chance.choice((1, 3, 3, 5))
    view = " ".join(map(str, range(1, peers + 1)))
    lines = [f"ensemble {chance.choice((1, 2, 3))}", f"peers {peers}", f"view {view}", "tick 1 6", "calm"]
    for number in range(1, events):
        lines += deepening(peers) if chance.randrange(40) == 0 else [hostile_line(chance, peers, number)]
    return "\n".join(lines) + "\n"


def cases(long):
    chance = random.Random(51)
    examples = [path.read_text() for path in sorted(TOP.glob("examples/*/schedule"))]
    texts = [CHANGED, REVERTED, DEEPENED, *(examples if long else [])]
    for text, wanted in TEXTS.items():
        yield "the whole schedule", lambda text=text, wanted=wanted: has_text(text, wanted)
    found = [prefix for text in texts for prefix in prefixes(text)]
    found += [LEADS + line + "\n" for line, _ in EDGES]
    for text in [CHANGED, REVERTED, DEEPENED, *examples]:
        found += with_other_bytes(chance, text, 300 if long else 12)
        found += with_other_words(chance, text, 300 if long else 12)
    for form in (1, 2, 3):
        for text in (REVERTED, CHANGED, DEEPENED):
            failing = list(with_failures(text, form))
            found += failing if long else chance.sample(failing, 60)
    found += [hostile_schedule(seed, 90) for seed in range(4000 if long else 200)]
    for line, cause in EDGES:
        wanted = (DONE, None) if cause is None else (SCHEDULE, f"schedule 6 {cause}\n")
        yield line[:40], lambda line=line, wanted=wanted: at_edge(line, wanted)
    for data in found:
        yield repr(data[-60:]), lambda data=data: ends_rightly(data)


def at_edge(line, wanted):
    """A line at a limit: the cause stands beside it in the table, and what is printed of it is not compared."""
    status, text = run("ensemble replay", (LEADS + line + "\n").encode("latin-1"))
    return differs((status, None if status == DONE else text), wanted)
