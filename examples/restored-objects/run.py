#!/usr/bin/env python3
"""Three peers lose their objects, and one of them has a backup. While it is restored, the two others go on. It ends by
itself within some seconds, and leaves nothing.

    ./ensemble prove                     once: proves the program and builds it
    examples/restored-objects/run.py     prints what stands in examples/restored-objects/text
"""
import subprocess
import sys
import time
from pathlib import Path

sys.dont_write_bytecode = True
sys.path.insert(0, str(Path(__file__).resolve().parent.parent / "three-peers"))
from peers import PEERS, PROGRAM, tell  # noqa: E402


def run(peers, peer, word, text=b""):
    """Runs a word on the files of a peer that has stopped. Returns the status, and what was written."""
    ran = subprocess.run([PROGRAM, word], cwd=peers.folder / str(peer), input=text, stdout=subprocess.PIPE, timeout=20)
    return ran.returncode, ran.stdout


def read(client, key):
    """What a key holds, once a peer that was started again has compared its tree with the others."""
    end = time.monotonic() + 20
    found = client.get(key)
    while found.name == "lost" and time.monotonic() < end:
        time.sleep(0.2)
        found = client.get(key)
    return found.value.decode() if found.value else found.name


def story(peers, client):
    print("write apple red:", client.over(b"apple", b"red", repeat=True).name)
    print("write pear yellow:", client.over(b"pear", b"yellow", repeat=True).name)

    # A majority has acknowledged both writes, and the third peer does so now.
    time.sleep(0.5)
    peers.close()
    status, backup = run(peers, 1, "backup")
    print(f"all stopped. A backup of peer 1: status {status}")
    print("check:", run(peers, 1, "check", backup)[1].decode().strip())

    # Each tree still names the newest version of each key. Nobody has the values.
    for peer in PEERS:
        (peers.folder / str(peer) / "objects").unlink()
        peers.running[peer] = peers.start(peer)
    print("their objects are gone, and they started again")
    print("read apple:", client.get(b"apple").name)

    peers.stop(1)
    print("peer 1 stopped")
    print("write plum blue:", client.over(b"plum", b"blue", repeat=True).name)
    print("restore peer 1:", run(peers, 1, "restore", backup)[1].decode().strip())

    # Its tree is not that of its seal, so it takes the tree of the others, which knows the plum. The objects stand by
    # their versions, which are still the newest.
    peers.running[1] = peers.start(1)
    print("it started again")
    for key in (b"apple", b"pear", b"plum"):
        print(f"read {key.decode()}:", read(client, key))


tell(story)
