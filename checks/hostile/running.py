"""Runs the built programs, peers that serve, and the cases of a table."""
import concurrent.futures
import contextlib
import itertools
import os
import resource
import signal
import socket
import subprocess
import sys
import tempfile
import threading
import time
from pathlib import Path

TOP = Path(__file__).resolve().parent.parent.parent
sys.path.insert(0, str(TOP / "examples" / "three-peers"))
from client import GET, OVER, Client, spell_value  # noqa: E402

DONE, USAGE, SCHEDULE, PREMISE, READ_FAULT, WRITE_FAULT = range(6)
CLASH, STORE_FAULT, LINK_FAULT, LIMIT, MEMORY, BACKUP = 6, 7, 8, 9, 10, 12

# Two gibibytes are enough for the largest input that any job accepts. The program itself takes less than 16 MiB, so a
# decoder that takes memory for what a count promises does not fit into 24.
MOST_MEMORY = 2 << 30
LITTLE_MEMORY = 24 << 20
SECONDS = 120

# Below the ports that the system gives to those who ask for any, in blocks of 64: those of one ensemble.
BLOCKS = [20_000 + 64 * ((os.getpid() + number) % 187) for number in range(187)]
PORTS = itertools.cycle(BLOCKS)
PORTS_LOCK = threading.Lock()


def program(name="ensemble"):
    return TOP / "crates" / name / "out" / name


def bounded(memory=MOST_MEMORY, size=None, dies=False):
    """What a child does before it runs a program: it takes at most so much memory, and writes no file beyond a size. A
    write beyond it fails, or ends the process if it is to die of it."""

    def before():
        if memory is not None:
            resource.setrlimit(resource.RLIMIT_AS, (memory, memory))
        if size is not None:
            signal.signal(signal.SIGXFSZ, signal.SIG_DFL if dies else signal.SIG_IGN)
            resource.setrlimit(resource.RLIMIT_CORE, (0, 0))
            resource.setrlimit(resource.RLIMIT_FSIZE, (size, size))

    return before


def run(words, data=b"", env=None, **limits):
    """The status and the text of a program that is run on these bytes, in a folder of its own."""
    name, *rest = words.split()
    with tempfile.TemporaryDirectory() as folder:
        ran = subprocess.run(
            [program(name), *rest],
            input=data,
            cwd=folder,
            stdout=subprocess.PIPE,
            timeout=SECONDS,
            env=env,
            preexec_fn=bounded(**limits),
        )
    return ran.returncode, ran.stdout.decode("latin-1")


def differs(got, wanted):
    """A complaint, or None if a run ended as wanted."""
    return None if got == wanted else f"wanted {short(wanted)}, got {short(got)}"


def short(it):
    text = repr(it)
    return text if len(text) <= 300 else f"{text[:200]} .. {text[-80:]}"


def free_port():
    """The port below that of peer 1 of a new ensemble, whose ports nobody has."""
    while True:
        with PORTS_LOCK:
            port = next(PORTS)
        try:
            for number in (*range(1, 10), 32):
                with socket.socket(socket.AF_INET, socket.SOCK_DGRAM) as it:
                    it.bind(("127.0.0.1", port + number))
        except OSError:
            continue
        return port


def is_bound(port):
    """Whether a socket of UDP has this port."""
    return f":{port:04X} " in Path("/proc/net/udp").read_text()


def wait_for(test, seconds=30):
    """Whether a test comes true within this time."""
    end = time.monotonic() + seconds
    while not test():
        if time.monotonic() > end:
            return False
        time.sleep(0.01)
    return True


class Ensemble:
    """Peers that serve, each in a folder of its own, and a client of them."""

    def __init__(self, peers=1, view=(1,)):
        self.place = tempfile.TemporaryDirectory()
        self.peers, self.view = peers, view
        self.processes = {}
        self.client = None
        while self.client is None:
            # Another program may look for ports at the same time. The port of the client then keeps the others.
            self.port = free_port()
            with contextlib.suppress(OSError):
                self.client = Client(self.port, 32, view)

    def folder(self, peer=1):
        place = Path(self.place.name) / str(peer)
        place.mkdir(exist_ok=True)
        return place

    def start(self, peer=1, turns=1_000_000_000, env=None, **limits):
        """Starts a peer, and waits until it has its port or has ended."""
        words = ["peer", peer, self.peers, self.port, turns, *self.view]
        self.processes[peer] = subprocess.Popen(
            [program(), *map(str, words)],
            cwd=self.folder(peer),
            stdout=subprocess.PIPE,
            stderr=subprocess.DEVNULL,
            env=env,
            preexec_fn=bounded(**limits),
        )
        wait_for(lambda: is_bound(self.port + peer) or self.processes[peer].poll() is not None)

    def start_all(self):
        for peer in range(1, self.peers + 1):
            if peer not in self.processes:
                self.start(peer)

    def end(self, peer=1, seconds=SECONDS):
        """The status and the text of a peer that ends by itself."""
        text = self.processes[peer].communicate(timeout=seconds)[0]
        return self.processes.pop(peer).returncode, text.decode()

    def kill(self, *peers):
        for peer in peers or list(self.processes):
            process = self.processes.pop(peer)
            process.kill()
            process.communicate()

    def work(self, word, data=b"", peer=1, env=None):
        """The status and the bytes that a word writes which works on the files of a peer."""
        ran = subprocess.run(
            [program(), word],
            input=data,
            cwd=self.folder(peer),
            stdout=subprocess.PIPE,
            timeout=SECONDS,
            env=env,
            preexec_fn=bounded(),
        )
        return ran.returncode, ran.stdout

    def images(self, peer=1):
        """The bytes of a peer's files. One that is not there has none."""
        files = [self.folder(peer) / name for name in ("facts", "nodes", "objects")]
        return tuple(file.read_bytes() if file.exists() else b"" for file in files)

    def put_back(self, images, peer=1):
        """Gives a peer these files. One that is None is not there."""
        for name, data in zip(("facts", "nodes", "objects"), images):
            if data is None:
                (self.folder(peer) / name).unlink(missing_ok=True)
            else:
                (self.folder(peer) / name).write_bytes(data)

    def __enter__(self):
        return self

    def __exit__(self, *_):
        self.kill()
        self.client.socket.close()
        self.place.cleanup()


def told(reply):
    """A reply in short: its word, with the value of a get."""
    return reply.name if reply.value is None else f"value {reply.value.hex()}"


def get(client, key, patience=20.0):
    """What a get finds, or `unavailable` if no peer served within this time."""
    reply = client.call(GET, key, repeat=True, patience=patience)[0]
    return "unavailable" if reply.name == "timeout" else told(reply)


def over(client, key, value, patience=20.0):
    """What becomes of an overwrite that is sent until a peer takes it, and not again once one may have."""
    return client.call(OVER, key, spell_value(value), patience=patience)[0].name


def complaints(cases, at_once):
    """What is wrong with each case, or None. A case is its name and a function that says so."""

    def tried(case):
        name, test = case
        try:
            complaint = test()
        except (OSError, subprocess.SubprocessError) as error:
            complaint = f"{type(error).__name__}: {error}"
        return f"{name}: {complaint}" if complaint else None

    with concurrent.futures.ThreadPoolExecutor(at_once) as pool:
        return list(pool.map(tried, cases))


def run_table(name, cases, at_once=os.cpu_count() or 1):
    """Runs the cases of a table, and prints those that are wrong and how many there were."""
    began = time.monotonic()
    found = complaints(cases, at_once)
    wrong = [it for it in found if it]
    for complaint in wrong[:20]:
        print(f"wrong: {name}: {complaint}")
    seconds = time.monotonic() - began
    print(f"hostile {name}: {len(found) - len(wrong)} cases passed, {len(wrong)} failed, {seconds:.0f} s", flush=True)
    return len(wrong)
