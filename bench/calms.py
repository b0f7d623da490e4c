#!/usr/bin/env python3
"""calms.py PEERS LINES: prints a schedule in which peer 1 is elected, and then LINES times ticks 100 times and all messages are delivered.

    bench/calms.py 3 2000 >/tmp/three; time ./ensemble replay </tmp/three
    bench/calms.py 9 500 >/tmp/nine;   time ./ensemble replay </tmp/nine

Each of the two delivers 400,000 messages.
"""

import sys

peers, lines = int(sys.argv[1]), int(sys.argv[2])
members = " ".join(str(peer) for peer in range(1, peers + 1))
print(f"ensemble 1\npeers {peers}\nview {members}\ntick 1 6\ncalm")
for _ in range(lines):
    print("tick 1 100\ncalm")
