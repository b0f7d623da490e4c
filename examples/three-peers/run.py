#!/usr/bin/env python3
"""Starts three peers in folders of their own, and calls them as a client: writes, reads, compares and sets, stops the
leader, reads again, and starts it again. It ends by itself within some seconds, and leaves nothing.

    ./ensemble prove                 once: proves the program and builds it
    examples/three-peers/run.py      prints what stands in examples/three-peers/text
"""
import sys

sys.dont_write_bytecode = True
from peers import tell  # noqa: E402


def story(peers, client):
    """What the client does, and what it sees. Which peer leads is left to chance, and so are the stamps, so neither is
    printed. Nobody else writes these keys, so a write may be repeated."""
    print("write apple red:", client.over(b"apple", b"red", repeat=True).name)
    found = client.get(b"apple")
    print("read apple:", found.value.decode())

    # Of two writes that compare with what was read, one takes effect.
    print("set apple green if it is as read:", client.update(b"apple", found.stamp, b"green").name)
    print("set apple blue if it is as read:", client.update(b"apple", found.stamp, b"blue").name)

    # The facts of a running peer are locked: a second process of the same peer ends, and changes nothing.
    leader = client.peer
    second = peers.start(leader)
    text = second.communicate(timeout=10)[0]
    print(f"a second process of the leader: {text.strip()}, status {second.returncode}")

    # Two of three are a majority. They elect a leader once the old one was silent for six ticks.
    peers.stop(leader)
    print("the leader stopped")
    print("read apple:", client.get(b"apple").value.decode())
    print("write pear yellow:", client.over(b"pear", b"yellow", repeat=True).name)

    # It goes on with what its files hold.
    peers.running[leader] = peers.start(leader)
    print("it started again")
    found = client.get(b"pear")
    print("set pear brown if it is as read:", client.update(b"pear", found.stamp, b"brown").name)
    print("read pear:", client.get(b"pear").value.decode())


tell(story)
