#!/usr/bin/env python3
"""calls.py CALLS KEYS BATCH: prints a schedule of three peers. Peer 1 is elected, and then called to overwrite KEYS keys in turn, CALLS times, with all messages delivered after each BATCH of calls.

    bench/calls.py 20000 20000 1 >/tmp/keys;  time ./ensemble replay </tmp/keys
    bench/calls.py 20000 1 16    >/tmp/batch; time ./ensemble replay </tmp/batch

A key takes at most 16 unanswered calls. bench/README.md has the measured times."""
import sys

calls, keys, batch = (int(word) for word in sys.argv[1:])
print("ensemble 1\npeers 3\nview 1 2 3\ntick 1 6\ncalm")
for number in range(1, calls + 1):
    print(f"call 1 {number} over {number % keys:08x} 61")
    if number % batch == 0:
        print("calm")
