#!/usr/bin/env python3
"""figures.py PROGRAM [RUNS]: prints a table of what runs of the program cost, the least of RUNS runs each (three, if no number is given).

    bench/figures.py crates/ensemble/out/ensemble
    bench/figures.py crates/ensemble/out/ensemble 5 >/tmp/before

Elapsed time, processor time and memory are the system's account of the process; memory below that of Python itself,
some 14 MB, is not seen. Where `valgrind` is there, the runs of the second table show what does not depend on the hour:
instructions, misses of the first-level caches of 32 KiB for instructions and data, and the functions that miss most.
bench/README.md has measured figures."""
import os, re, shutil, subprocess, sys, tempfile, time

HERE = os.path.dirname(os.path.abspath(__file__))


def schedule(room, name, *words):
    """A file with the schedule that a script of this folder prints."""
    path = f"{room}/{name}"
    with open(path, "wb") as out:
        subprocess.run([sys.executable, f"{HERE}/{words[0]}.py", *words[1:]], stdout=out, check=True)
    return path


def cost(words, given):
    """Elapsed seconds, seconds of processor time, and megabytes of memory of one run."""
    with open(given, "rb") as source, open(os.devnull, "wb") as sink:
        begun = time.monotonic()
        process = subprocess.Popen(words, stdin=source, stdout=sink)
        _, status, used = os.wait4(process.pid, 0)
        elapsed = time.monotonic() - begun
    process.returncode = os.waitstatus_to_exitcode(status)
    if process.returncode:
        sys.exit(f"{' '.join(words)} ended with status {process.returncode}")
    return elapsed, used.ru_utime + used.ru_stime, used.ru_maxrss / 1024


def counted(words, given, room):
    """Instructions, misses of the instruction cache, misses of the data cache, and the three functions that miss most instructions."""
    out = f"{room}/counts"
    caches = ["--cache-sim=yes", "--I1=32768,8,64", "--D1=32768,8,64", "--LL=8388608,16,64"]
    with open(given, "rb") as source:
        whole = ["valgrind", "--tool=callgrind", *caches, f"--callgrind-out-file={out}", *words]
        subprocess.run(whole, stdin=source, stdout=subprocess.DEVNULL, stderr=subprocess.DEVNULL, check=True)
    text = open(out, errors="replace").read()
    events = re.search(r"^events: (.*)$", text, re.M).group(1).split()
    totals = re.search(r"^(?:totals|summary): (.*)$", text, re.M).group(1).split()
    at = dict(zip(events, map(int, totals)))
    listed = ["callgrind_annotate", "--show=I1mr", "--sort=I1mr", "--threshold=60", out]
    shown = subprocess.run(listed, capture_output=True, text=True, errors="replace").stdout
    paths = re.findall(r"^ *[\d,]+ \([^)]*\) +\S*?:(\S.*?)(?: \[.*)?$", shown, re.M)
    # A path may end in the digest of its type arguments.
    names = ["::".join(re.sub(r"::<#\w+>", "", path).split("::")[-2:]) for path in paths]
    return at["Ir"], at["I1mr"], at["D1mr"] + at["D1mw"], names[:3]


def main():
    program = os.path.abspath(sys.argv[1])
    runs = int(sys.argv[2]) if len(sys.argv) > 2 else 3
    with tempfile.TemporaryDirectory() as room:
        nothing = f"{room}/nothing"
        open(nothing, "wb").close()
        generated = lambda calls: ([program, "generate", "7", str(calls), "summary"], nothing)
        replayed = lambda *words: ([program, "replay"], schedule(room, "-".join(words), *words))
        rows = {
            "`generate 7 2000 summary`": generated(2_000),
            "`generate 7 20000 summary`": generated(20_000),
            "`replay` of `schedules.py 1000`": replayed("schedules", "1000"),
            "`replay` of `schedules.py 1`": replayed("schedules", "1"),
            "`replay` of `calls.py 20000 20000 1`": replayed("calls", "20000", "20000", "1"),
            "`replay` of `calls.py 20000 1 16`": replayed("calls", "20000", "1", "16"),
            "`replay` of `calms.py 3 2000`": replayed("calms", "3", "2000"),
            "`replay` of `elections.py 624`": replayed("elections", "624"),
        }
        print(f"| what, the least of {runs} runs | elapsed | processor time | memory |\n|---|---|---|---|")
        for name, (words, given) in rows.items():
            seen = [cost(words, given) for _ in range(runs)]
            elapsed, processor, memory = (min(it[i] for it in seen) for i in range(3))
            print(f"| {name} | {elapsed:.2f} s | {processor:.2f} s | {memory:.0f} MB |", flush=True)
        if not shutil.which("valgrind"):
            return print("\n`valgrind` is not there, so nothing is counted.")
        print("\n| what | instructions | misses of instructions | misses of data | most misses of instructions |\n|---|---|---|---|---|")
        for calls in (2_000, 8_000):
            instructions, missed, missed_data, names = counted(*generated(calls), room)
            millions = [f"{it / 1e6:.1f} million" for it in (missed, missed_data)]
            print(f"| `generate 7 {calls} summary` | {instructions / 1e9:.3f} billion | {' | '.join(millions)} | {', '.join(names)} |", flush=True)


main()
