#!/usr/bin/env python3
"""Runs the cluster of the script over real sockets, replays what it recorded, and audits the record. It ends by itself
within some seconds, and leaves nothing.

    ./ensemble prove                         once: proves the program and builds it
    examples/a-recorded-cluster/run.py       prints what stands in examples/a-recorded-cluster/text

    examples/a-recorded-cluster/run.py schedule      prints the schedule that was recorded, and nothing else
"""
import random
import subprocess
import sys
from pathlib import Path

HERE = Path(__file__).resolve().parent
PROGRAM = HERE.parent.parent / "crates" / "ensemble" / "out" / "ensemble"
PEERS = ["1", "2", "3"]


def ensemble(words, text):
    """What the program prints for these words and this input, and its status."""
    ran = subprocess.run([PROGRAM, *words], input=text, stdout=subprocess.PIPE, timeout=30)
    return ran.stdout, ran.returncode


def record():
    """The record of a cluster, on ports that no other program has."""
    script = (HERE / "script").read_bytes()
    for _ in range(20):
        # Below the ports that the system gives to those who ask for any.
        port = random.randrange(20_000, 30_000)
        text, status = ensemble(["cluster", str(len(PEERS)), str(port), *PEERS], script)
        if status == 0:
            return text
    sys.exit("no free ports were found")


def story(text):
    """What the record says. Messages come in an order that is left to chance, so the schedule and the numbers of its
    events are not printed."""
    schedule, _, printed = text.partition(b"answers\n")
    for line in printed.decode().splitlines():
        words = line.split(" ")
        if words[0] == "answer":
            print(f"call {words[1]} was answered:", " ".join(words[3:]))
        else:
            print(line)
    script = (HERE / "script").read_text().splitlines()
    events = schedule.decode().splitlines()[3:]
    kept = [line for line in events if not line.startswith("deliver ")] == [line for line in script if "turn" not in line]
    print("besides deliveries it has the lines of the script:", "yes" if kept else "no")
    print("a replay prints the same:", "yes" if ensemble(["replay"], schedule) == (printed, 0) else "no")
    print("its audit:", ensemble(["audit"], text)[0].decode().strip())


def main():
    if not PROGRAM.exists():
        sys.exit("there is no proved program: ./ensemble prove makes it")
    text = record()
    if sys.argv[1:] == ["schedule"]:
        sys.stdout.buffer.write(text.partition(b"answers\n")[0])
    else:
        story(text)


main()
