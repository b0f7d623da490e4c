#!/usr/bin/env python3
"""elections.py LINES: prints a schedule of nine peers. Peer 1 is elected, and then ticks 100 times on each of LINES lines.

    bench/elections.py 624 >/tmp/within; time ./ensemble replay </tmp/within
    bench/elections.py 625 >/tmp/past;   time ./ensemble replay </tmp/past

At each of these ticks the leader sends eight messages, which nobody receives: 624 lines stay just below the limit of
500,000 messages, and one line more passes it. bench/README.md has the measured times."""
import sys

out = ['ensemble 1', 'peers 9', 'view 1 2 3 4 5 6 7 8 9', 'tick 1 6', 'calm']
out += ['tick 1 100'] * int(sys.argv[1])
print('\n'.join(out))
