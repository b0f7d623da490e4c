"""Peers that serve on this machine, each in a folder of its own, and a client of them, for the stories of the examples."""
import random
import subprocess
import sys
import tempfile
import time
from pathlib import Path

from client import Client

TOP = Path(__file__).resolve().parent.parent.parent
PROGRAM = TOP / "crates" / "ensemble" / "out" / "ensemble"
PEERS = [1, 2, 3]
CLIENT = 32

# A turn without a frame takes about a millisecond, so a peer that is left alone ends within minutes.
TURNS = 200_000


class Peers:
    """Three peers on a machine, each in a folder of its own, which keeps its three files."""

    def __init__(self, folder, port):
        self.folder = folder
        self.port = port
        self.running = {}

    def start(self, peer):
        """Starts a peer. It opens its files and binds its port, or ends."""
        place = self.folder / str(peer)
        place.mkdir(exist_ok=True)
        words = ["peer", peer, len(PEERS), self.port, TURNS, *PEERS]
        return subprocess.Popen([PROGRAM, *map(str, words)], cwd=place, stdout=subprocess.PIPE, text=True)

    def open(self):
        """Starts all of them. Returns whether all of them serve: another program may have taken a port."""
        for peer in PEERS:
            self.running[peer] = self.start(peer)
        time.sleep(0.3)
        return all(process.poll() is None for process in self.running.values())

    def stop(self, peer):
        """Ends the process of a peer, as an operator or a crash would."""
        process = self.running.pop(peer)
        process.kill()
        process.communicate()

    def close(self):
        """Stops all of them."""
        for peer in list(self.running):
            self.stop(peer)


def client_at(port):
    """A client, or None if its port is taken."""
    try:
        return Client(port, CLIENT, PEERS)
    except OSError:
        return None


def tell(story):
    """Runs a story on three new peers and a client, at ports that are free."""
    if not PROGRAM.exists():
        sys.exit("there is no proved program: ./ensemble prove makes it")
    for _ in range(20):
        # Below the ports that the system gives to those who ask for any.
        port = random.randrange(20_000, 30_000)
        client = client_at(port)
        with tempfile.TemporaryDirectory() as folder:
            peers = Peers(Path(folder), port)
            try:
                if client and peers.open():
                    story(peers, client)
                    return
            finally:
                peers.close()
    sys.exit("no free ports were found")
