#!/usr/bin/env python3
"""schedules.py KEYS: prints a schedule of 200,000 lines, 199,996 calls on KEYS keys at one peer.

    bench/schedules.py 1000 >/tmp/many; time ./ensemble replay </tmp/many >/dev/null
    bench/schedules.py 1    >/tmp/one;  time ./ensemble replay </tmp/one  >/dev/null

bench/README.md has the measured times."""
import sys

keys = int(sys.argv[1])
out = ['ensemble 1', 'peers 1', 'view 1', 'tick 1 6']
for n in range(199_996):
    key = '%04x' % (n * 7919 % keys)
    out.append('call 1 %d get %s' % (n, key) if n % 2 else 'call 1 %d over %s %08x' % (n, key, n))
print('\n'.join(out))
