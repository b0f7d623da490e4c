"""Hostile records: texts for `audit` that are cut or changed.

Each wanted report, and each `schedule LINE CAUSE` of a text that is no record, is what the reader of docs/schedules.md
and the test of docs/runs.md say.
"""
import random

from running import DONE, LIMIT, SCHEDULE, differs, run
from schedules import CHANGED, REVERTED, SPLINTERS, TEXTS, hostile_schedule
from texts import MOST_LINES, read_record, report

# Every word of a printed line. The numbers stay small: which cause comes first of a number that is too great for a
# peer, and of one that no peer has, is nowhere said.
WORDS = (
    "answer change history answers value notfound ok failed unavailable busy lost timeout taken refused "
    "0 1 2 3 4 5 6 9 01 -1 18446744073709551615 1.1.1 1.1 2.2.1 - 6b 6B 6b6b 76 7"
).split() + [""]

ONE = "ensemble 2\npeers 1\nview 1\ntick 1 6\n"


def audits_rightly(data):
    """What is wrong with the audit of these bytes, or None."""
    printed, text = read_record(data)
    status = DONE if text is None else LIMIT if text.startswith("limit") else SCHEDULE
    return differs(run("ensemble audit", data), (status, report(printed) if text is None else text))


def with_other_words(chance, record, count):
    """Records of which words and lines behind `answers` were changed, removed, doubled or exchanged."""
    schedule, _, printed = record.partition("answers\n")
    for _ in range(count):
        lines = [line.split(" ") for line in printed.splitlines()]
        for _ in range(chance.choice((1, 1, 1, 2))):
            line = chance.choice(lines)
            kind = chance.randrange(7)
            if kind < 2 and not (line[0] == "change" and len(line) == 4):
                line[chance.randrange(len(line))] = chance.choice(WORDS)
            elif kind == 2 and len(line) > 1:
                del line[chance.randrange(len(line))]
            elif kind == 3:
                line.insert(chance.randrange(len(line)), chance.choice(WORDS))
            elif kind == 4:
                lines.insert(chance.randrange(len(lines)), list(chance.choice(lines)))
            elif kind == 5 and len(line) > 3:
                at, other = chance.sample(range(2, len(line)), 2)
                line[at], line[other] = line[other], line[at]
            elif kind == 6 and len(lines) > 1:
                lines.remove(line)
        yield schedule + "answers\n" + "".join(" ".join(line) + "\n" for line in lines)


def with_other_bytes(chance, record, count):
    data = record.encode()
    for _ in range(count):
        at = chance.randrange(len(data))
        yield data[:at] + chance.choice([*SPLINTERS, b""]) + data[at + 1 :]


def at_the_limit():
    """The line `answers` may be line 200,001, and no other line may."""
    full = ONE + (MOST_LINES - 4) * "calm\n"
    yield "200,000 lines and their answers", full + "answers\n", (DONE, '{"faults":[],"keys":0,"legal":0}\n')
    yield "200,001 lines", full + "calm\nanswers\n", (LIMIT, "limit lines 200000\n")
    yield "a byte of line 200,001", full + "c", (LIMIT, "limit lines 200000\n")
    yield "a long history", ONE + "call 1 1 get 6b\nanswers\nhistory 6b" + 2_000_000 * " 1" + "\n", (
        DONE,
        '{"faults":[{"clause":1,"id":1,"key":"6b"}],"keys":1,"legal":0}\n',
    )
    yield "a history that is too long", ONE + "call 1 1 get 6b\nanswers\nhistory 6b" + 4_200_000 * " 1" + "\n", (
        SCHEDULE,
        "schedule 7 10\n",
    )


def cases(long):
    chance = random.Random(52)
    records = [schedule + "answers\n" + text for schedule, text in TEXTS.items()]
    for schedule, record in zip((REVERTED, CHANGED), records):
        yield "a record", lambda record=record: audits_rightly(record.encode())
    for record in records if long else records[1:]:
        for size in range(len(record)):
            yield f"cut at {size}", lambda data=record[:size].encode(): audits_rightly(data)
    more = [hostile_schedule(seed, 60) for seed in range(5000, 5200 if long else 5010)]
    for record in [*records, *filter(None, map(legal_record, more))]:
        yield "a record", lambda record=record: audits_rightly(record.encode())
        changed = [it.encode() for it in with_other_words(chance, record, 200 if long else 15)]
        for data in [*changed, *with_other_bytes(chance, record, 60 if long else 5)]:
            yield repr(data[-60:]), lambda data=data: audits_rightly(data)
    for name, text, wanted in at_the_limit():
        yield name, lambda text=text, wanted=wanted: differs(run("ensemble audit", text.encode()), wanted)


def legal_record(schedule):
    """A record, or None of a schedule that does not run."""
    status, text = run("ensemble replay", schedule.encode())
    return schedule + "answers\n" + text if status == DONE and "answer" in text else None
