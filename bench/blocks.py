#!/usr/bin/env python3
"""blocks.py [ENTRIES ..]: how many nodes the hash tree of so many entries has in each version, and how many blocks MD5 hashes.

    bench/blocks.py
    bench/blocks.py 20000

The keys are those of `benchmarks`: the numbers from 0 on, in eight bytes. The nodes follow from docs/formats.md alone, so
nothing is measured. A scan hashes every node. A get hashes the nodes on the path of its key, and an insert these and the ones
that replace them: printed are the blocks and the bytes of a path, the mean over all keys of the tree."""
import hashlib
import sys
from collections import Counter

# The level of the segments.
DEPTHS = {"one": 3, "two": 5}
KEY = 8
ENTRY = 1 + KEY + 20 + 16
INNER_HEAD, SEGMENT_HEAD, CHILD = 8, 10, 16


def blocks(size):
    """How many blocks of 64 bytes MD5 takes for so many bytes, with the bit and the length that it adds."""
    return (size + 8) // 64 + 1


def levels(entries, depth):
    """For each level from the root on, the size of each node by its index."""
    paths = [int.from_bytes(hashlib.md5(number.to_bytes(KEY, "big")).digest()[:4], "big") for number in range(entries)]
    below = Counter(path >> (32 - 4 * depth) for path in paths)
    sizes = [{index: SEGMENT_HEAD + ENTRY * count for index, count in below.items()}]
    members = [below]
    while len(sizes) <= depth:
        children = Counter(index >> 4 for index in sizes[0])
        sizes.insert(0, {index: INNER_HEAD + CHILD * count for index, count in children.items()})
        above = Counter()
        for index, count in members[0].items():
            above[index >> 4] += count
        members.insert(0, above)
    return sizes, members


def figures(entries, depth):
    """The nodes, the bytes and the blocks of a tree, and the mean bytes and blocks of the path of a key."""
    sizes, members = levels(entries, depth)
    nodes = sum(len(level) for level in sizes)
    size = sum(sum(level.values()) for level in sizes)
    hashed = sum(blocks(each) for level in sizes for each in level.values())
    weights = [(level[index], count) for level, held in zip(sizes, members) for index, count in held.items()]
    path_size = sum(each * count for each, count in weights) / entries
    path = sum(blocks(each) * count for each, count in weights) / entries
    return nodes, size, hashed, path_size, path


def main():
    print("| entries | version | nodes | bytes | blocks of a scan | of version one's | blocks of a path | bytes of a path |")
    print("|---|---|---|---|---|---|---|---|")
    for entries in map(int, sys.argv[1:] or ["1000", "5000", "20000", "50000", "100000", "200000", "1000000"]):
        first = None
        for version, depth in DEPTHS.items():
            nodes, size, hashed, path_size, path = figures(entries, depth)
            first = first or hashed
            print(f"| {entries:,} | {version} | {nodes:,} | {size:,} | {hashed:,} | {hashed / first:.2f} | {path:.1f} | {path_size:,.0f} |")


main()
