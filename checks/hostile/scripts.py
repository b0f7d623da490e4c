"""Hostile scripts of a cluster, and hostile datagrams among its messages.

A text that is no script has its first bad line and cause by the reader of docs/schedules.md. What a script records has
to be a record without a fault that keeps the lines of the script, and a replay of its schedule has to print the same.
"""
import random
import socket
import subprocess
import threading

from formats import spell_epoch, spell_frame
from running import DONE, LIMIT, SCHEDULE, differs, free_port, program, run
from schedules import SPLINTERS
from texts import complaint_of_run, read_record, read_schedule, read_script, report

ONE = """\
tick 1 6
call 1 1 over 6b 76
call 1 2 get 6b
turn 2
stop 1
call 1 3 get 6b
start 1
change 1 1
tick 1 6
call 1 18446744073709551615 swap 6b 76 -
"""

THREE = """\
tick 1 6
turn 60
call 1 1 over 6b 76
turn 60
stop 1
tick 2 6
turn 60
start 1
call 2 2 get 6b
call 2 3 append 6b 77
turn 60
tick 1 6
turn 60
tick 2 6
turn 90
tick 3 6
turn 60
call 3 4 get 6b
turn 60
"""

WORDS = (
    "call tick change stop start turn calm deliver pass lose upgrade revert fail get once update append add swap over "
    "delete 0 1 2 3 01 - 6b 6B 76 1.1.1 100 101 18446744073709551616"
).split() + [""]


def complaint_of_record(text, script, members):
    """What is wrong with a record, or None."""
    printed, told = read_record(text.encode())
    if told is not None:
        return f"no record: {told.strip()}"
    schedule, _, behind = text.partition("answers\n")
    lines = schedule.splitlines()
    head = ["ensemble 3", f"peers {members}", "view " + " ".join(map(str, range(1, members + 1)))]
    if lines[:3] != head:
        return f"the schedule begins with {lines[:3]}"
    kept = [line for line in lines[3:] if not line.startswith("deliver ")]
    if kept != [line for line in script.splitlines() if not line.startswith("turn ")]:
        return "the schedule does not keep the lines of the script"
    delivered = [it for it in lines if it.startswith("deliver ")]
    if len(delivered) != len(set(delivered)):
        return "a message was delivered twice"
    reading, _ = read_schedule(schedule.encode())
    legal = complaint_of_run(reading, behind)
    if legal:
        return legal
    if run("ensemble audit", text.encode()) != (DONE, report(printed)):
        return "the audit differs"
    return differs(run("ensemble replay", schedule.encode()), (DONE, behind))


def follows(script):
    """What is wrong with a cluster of one peer that follows this script, or None. It sends nothing, so its look binds a
    port and finds nothing."""
    data = script.encode("latin-1")
    _, text = read_script(data, 1)
    status, got = run(f"ensemble cluster 1 {free_port()} 1", data)
    if text is not None:
        return differs((status, got), (LIMIT if text.startswith("limit") else SCHEDULE, text))
    return complaint_of_record(got, script, 1) if status == DONE else f"wanted status 0, got {status}: {got}"


def takes_long(script):
    """Whether a script looks so often that a run takes long. A look waits for a millisecond."""
    words = [line.split(" ") for line in script.splitlines()]
    return sum(int(it[1]) for it in words if it[0] == "turn" and len(it) == 2 and it[1].isdigit()) > 300


def with_other_words(chance, text, count):
    for _ in range(count):
        lines = [line.split(" ") for line in text.splitlines()]
        line = chance.choice(lines)
        line[chance.randrange(len(line))] = chance.choice(WORDS)
        if chance.randrange(3) == 0:
            lines.insert(chance.randrange(len(lines)), list(chance.choice(lines)))
        yield "".join(" ".join(line) + "\n" for line in lines)


def with_other_bytes(chance, text, count):
    for _ in range(count):
        at = chance.randrange(len(text))
        yield text[:at] + chance.choice(SPLINTERS).decode("latin-1") + text[at + 1 :]


def datagrams(chance):
    """Bytes that are no message of the run, and frames that only look like one."""
    yield b""
    yield spell_frame(17, 1, 2, spell_epoch((2**64 - 1, 2**32 - 1)))
    yield spell_frame(3, 1, 2, spell_epoch((2**63, 1)))
    yield chance.randbytes(chance.randrange(1, 200))
    yield chance.randbytes(60_000)


def follows_in_noise(seed):
    """What is wrong with a cluster of three peers whose ports take hostile datagrams while it runs, or None."""
    port, chance, over = free_port(), random.Random(seed), threading.Event()

    def throw():
        with socket.socket(socket.AF_INET, socket.SOCK_DGRAM) as it:
            while not over.wait(0.002):
                for data in datagrams(chance):
                    it.sendto(data, ("127.0.0.1", port + chance.randint(1, 3)))

    thrower = threading.Thread(target=throw)
    thrower.start()
    words = [program(), "cluster", "3", str(port), "1", "2", "3"]
    try:
        ran = subprocess.run(words, input=THREE.encode(), stdout=subprocess.PIPE, timeout=60)
    finally:
        over.set()
        thrower.join()
    if ran.returncode != DONE:
        return f"wanted status 0, got {ran.returncode}: {ran.stdout}"
    return complaint_of_record(ran.stdout.decode(), THREE, 3)


def cases(long):
    chance = random.Random(54)
    texts = [ONE, *(ONE[:size] for size in range(0, len(ONE), 1 if long else 3))]
    texts += with_other_words(chance, ONE, 1500 if long else 60)
    texts += with_other_bytes(chance, ONE, 800 if long else 30)
    for text in texts:
        if not takes_long(text):
            yield repr(text[-60:]), lambda text=text: follows(text)
    for seed in range(40 if long else 4):
        yield f"noise {seed}", lambda seed=seed: follows_in_noise(seed)
