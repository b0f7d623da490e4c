#!/usr/bin/env python3
"""peers.py [PART ..]: measures three peers that serve on this machine, beside an etcd of three members.

    ./ensemble prove
    bench/peers.py                     all parts, one after another
    bench/peers.py idle peers etcd     these alone

The parts are idle, peers, plain, etcd, perf, storm, calls and instructions. Each prints rows as bench/notebook.md has them.
The files of the peers and of etcd lie below the folder TMPDIR, on one disk. etcd wants Debian's packages etcd-server and
etcd-client, the last two parts want strace and valgrind, and rustc compiles the callers and the plain peers
(bench/plain/load.rs and peer.rs)."""
import os
import random
import re
import signal
import subprocess
import sys
import tempfile
import time
from pathlib import Path

TOP = Path(__file__).resolve().parent.parent
PROGRAM = os.environ.get("ENSEMBLE", TOP / "crates" / "ensemble" / "out" / "ensemble")
MEMBERS = [1, 2, 3]
CALLERS = [1, 8, 32]
KEYS = 64
SECONDS = 5
STORM = 1_000_000
PARTS = ["idle", "peers", "plain", "etcd", "perf", "storm", "calls", "instructions"]


def run(*words, **options):
    """What a program prints."""
    return subprocess.run([str(word) for word in words], check=True, stdout=subprocess.PIPE, text=True, **options).stdout


def processor_time(processes):
    """The seconds of processor time that these processes have used."""
    used = 0
    for process in processes:
        fields = Path(f"/proc/{process.pid}/stat").read_text().rsplit(")", 1)[1].split()
        used += int(fields[11]) + int(fields[12])
    return used / os.sysconf("SC_CLK_TCK")


class Running:
    """Programs that run in folders of their own until the end of a `with`."""

    def __init__(self):
        self.processes = []

    def __enter__(self):
        self.place = tempfile.TemporaryDirectory()
        self.folder = Path(self.place.name)
        return self

    def start(self, name, *words):
        folder = self.folder / name
        folder.mkdir()
        with open(folder / "log", "w") as log:
            words = [str(word) for word in words]
            self.processes.append(subprocess.Popen(words, cwd=folder, stdout=log, stderr=subprocess.STDOUT))

    def end(self):
        for process in self.processes:
            process.terminate()
        for process in self.processes:
            process.wait()

    def __exit__(self, *_error):
        self.end()
        self.place.cleanup()


class Bench:
    """The parts, over one compiled program of callers."""

    def __init__(self, folder):
        self.folder = folder
        self.load = self.compiled("load")

    def compiled(self, name):
        run("rustc", "--edition", "2021", "-O", "-o", self.folder / name, TOP / "bench" / "plain" / f"{name}.rs")
        return self.folder / name

    def serve(self, running, *under):
        """Starts three peers, and waits until they serve. Returns the port below theirs."""
        port = random.randrange(20_000, 30_000)
        for member in MEMBERS:
            running.start(str(member), *under, PROGRAM, "peer", member, len(MEMBERS), port, 1_000_000_000, *MEMBERS)
        time.sleep(1)
        assert all(process.poll() is None for process in running.processes), "a port is taken: try again"
        run(self.load, "count", port, len(MEMBERS), "put", KEYS, KEYS)
        return port

    def rows(self, what, running, target, kinds=("put", "get")):
        """A row for each kind of call and number of callers."""
        for kind in kinds:
            for callers in CALLERS:
                before = processor_time(running.processes)
                words = run(self.load, *target, kind, callers, KEYS, SECONDS).split()
                used = processor_time(running.processes) - before
                rate, median, high, again = map(int, words)
                each = used / (rate * SECONDS) * 1e6
                print(f"| {what} | {kind} | {callers} | {rate:,} | {median / 1000:.2f} ms | {high / 1000:.2f} ms | {each:.0f} µs | {again} |", flush=True)

    def idle(self):
        with Running() as running:
            self.serve(running)
            before = processor_time(running.processes)
            time.sleep(SECONDS)
            used = (processor_time(running.processes) - before) / SECONDS / len(MEMBERS)
            print(f"| an idle peer, of one processor | {used:.2%} |")

    def peers(self):
        with Running() as running:
            port = self.serve(running)
            self.rows("three peers", running, ["peers", port, len(MEMBERS)])

    def plain(self):
        """Puts of plain peers that write the same files, without seals and with them."""
        program = self.compiled("peer")
        for seals in [[], ["seals"]]:
            with Running() as running:
                port = random.randrange(20_000, 30_000)
                for member in MEMBERS:
                    running.start(str(member), program, member, port, *seals)
                time.sleep(1)
                what = " with ".join(["three plain peers", *seals])
                self.rows(what, running, ["peers", port, len(MEMBERS)], ["put"])

    def start_etcd(self, running):
        """Starts three members of etcd. Returns their ports for clients."""
        first = random.randrange(30_000, 32_000)
        cluster = ",".join(f"m{member}=http://127.0.0.1:{first + 10 + member}" for member in MEMBERS)
        for member in MEMBERS:
            client, peer = f"http://127.0.0.1:{first + member}", f"http://127.0.0.1:{first + 10 + member}"
            running.start(
                f"m{member}", "etcd", "--name", f"m{member}", "--data-dir", "data", "--initial-cluster", cluster,
                "--listen-client-urls", client, "--advertise-client-urls", client,
                "--listen-peer-urls", peer, "--initial-advertise-peer-urls", peer, "--log-level", "error",
            )  # fmt: skip
        time.sleep(5)
        assert all(process.poll() is None for process in running.processes), "etcd did not start"
        return [first + member for member in MEMBERS]

    def etcd(self):
        with Running() as running:
            ports = self.start_etcd(running)
            self.rows("etcd, over its HTTP gateway", running, ["etcd", ",".join(map(str, ports))])

    def perf(self):
        with Running() as running:
            ports = self.start_etcd(running)
            for load in ["s", "m", "l"]:
                words = ["etcdctl", "--endpoints", f"http://127.0.0.1:{ports[0]}", "check", "perf", f"--load={load}"]
                done = subprocess.run(words, stdout=subprocess.PIPE, stderr=subprocess.DEVNULL, text=True, env={**os.environ, "ETCDCTL_API": "3"})
                lines = [line for line in done.stdout.splitlines() if re.match("PASS|FAIL|Throughput", line)]
                print(f"| etcdctl check perf --load={load} | {'; '.join(lines)} |", flush=True)

    def storm(self):
        with Running() as running:
            port = self.serve(running)
            puts = [self.load, "peers", port, len(MEMBERS), "put", 8, KEYS, SECONDS]
            before = int(run(*puts).split()[0])
            start = time.monotonic()
            words = [str(word) for word in [self.load, "storm", port, len(MEMBERS), STORM]]
            with subprocess.Popen(words, stdout=subprocess.DEVNULL) as sending:
                during = int(run(*puts).split()[0])
                sending.wait()
            took = time.monotonic() - start
            after = int(run(*puts).split()[0])
            print(f"| puts a second of 8 callers before, during and after a storm of {STORM:,} datagrams in {took:.0f} s | {before:,}, {during:,}, {after:,} |")

    def calls(self):
        """The system calls of the three peers for a put and a get."""
        for kind in ["put", "get"]:
            with Running() as running:
                port = self.serve(running, "strace", "-f", "-c", "-o", "counts")
                self.counted(running, port, kind, 1000)
                print(f"| system calls of 1,000 calls, {kind} |")
                for member in MEMBERS:
                    print((running.folder / str(member) / "counts").read_text())

    def counted(self, running, port, kind, calls):
        run(self.load, "count", port, len(MEMBERS), kind, calls, KEYS)
        for process in running.processes:
            # A tool that runs the peer as a child writes what it counted once the peer has ended.
            for child in Path(f"/proc/{process.pid}/task/{process.pid}/children").read_text().split():
                os.kill(int(child), signal.SIGTERM)
        time.sleep(0.5)
        running.end()

    def instructions(self):
        """The instructions of the three peers for a put and a get: those of 1,500 calls without those of 500."""
        for kind in ["put", "get"]:
            totals = []
            for calls in [500, 1500]:
                with Running() as running:
                    port = self.serve(running, "valgrind", "--tool=callgrind", "--callgrind-out-file=counts")
                    self.counted(running, port, kind, calls)
                    logs = [(running.folder / str(member) / "log").read_text() for member in MEMBERS]
                    totals.append([int(re.search(r"Collected : (\d+)", log)[1]) for log in logs])
            each = sorted((more - fewer) / 1000 for fewer, more in zip(*totals))
            print(f"| instructions of a {kind}, of the followers and of the leader | {', '.join(f'{count:,.0f}' for count in each)} |", flush=True)


def main():
    parts = sys.argv[1:] or PARTS
    with tempfile.TemporaryDirectory() as folder:
        bench = Bench(Path(folder))
        for part in parts:
            getattr(bench, part)()


main()
