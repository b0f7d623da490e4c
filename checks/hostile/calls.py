"""Calls of the system that fail: each call of a kind in turn fails, fails after it had its effect, or ends the process.

A library that is loaded before the C library counts the calls of one kind, and does so to one of them. Wanted of a job
are its own status and text, or the status of that fault and its line; of a restore, that the tree is then the old one or
that of the backup; of a peer alone, that it serves on or ends with that status, and that its files then have what they
may have after a kill: see disks.py.
"""
import contextlib
import functools
import os
import random
import shutil
import subprocess
import tempfile
from pathlib import Path

from backups import item, samples
from copies import items_of
from disks import Images, Puts, prepare
from formats import spell_backup
from running import DONE, LINK_FAULT, MEMORY, READ_FAULT, STORE_FAULT, TOP, WRITE_FAULT, Ensemble, differs, run
from schedules import CHANGED, DEEPENED, REVERTED

LIBRARY = r"""
typedef unsigned long size_t;
extern char *getenv(const char *);
extern int strcmp(const char *, const char *);
extern long strtol(const char *, char **, int);
extern long syscall(long, ...);
extern int *__errno_location(void);
extern void *dlsym(void *, const char *);
extern void *__libc_malloc(size_t);
extern void *__libc_realloc(void *, size_t);

static long seen;

/* Says at the end how many calls of this kind there were. */
void _exit(int status) {
    const char *name = getenv("HOSTILE_TOLD");
    if (name) syscall(1, syscall(2, name, 0101, 0600), &seen, sizeof seen);
    for (;;) syscall(231, status);
}

/* Whether this call is the one, and then what becomes of it: 'f'ails, has its 'e'ffect and fails, or 'k'ills. */
static char fate(const char *call) {
    const char *name = getenv("HOSTILE_CALL"), *at = getenv("HOSTILE_AT"), *how = getenv("HOSTILE_HOW");
    if (!name || !at || !how || strcmp(name, call)) return 0;
    return __atomic_add_fetch(&seen, 1, __ATOMIC_SEQ_CST) == strtol(at, 0, 10) ? *how : 0;
}

static long failed(int error) {
    *__errno_location() = error;
    return -1;
}

static long falls(const char *call, long number, long a, long b, long c, long d, long e, long f) {
    char how = fate(call);
    if (how == 'f') return failed(5);
    if (how == 'k') syscall(62, syscall(39), 9);
    long result = syscall(number, a, b, c, d, e, f);
    return how == 'e' ? failed(5) : result;
}

int pthread_create(void *thread, const void *attributes, void *(*start)(void *), void *argument) {
    int (*real)(void *, const void *, void *(*)(void *), void *) = dlsym((void *)-1, "pthread_create");
    return fate("thread") ? 11 : real(thread, attributes, start, argument);
}

void *malloc(size_t size) { return fate("memory") ? (failed(12), (void *)0) : __libc_malloc(size); }
void *realloc(void *old, size_t size) { return fate("memory") ? (failed(12), (void *)0) : __libc_realloc(old, size); }
long read(int file, void *to, size_t size) { return falls("read", 0, file, (long)to, size, 0, 0, 0); }
long write(int file, const void *from, size_t size) { return falls("write", 1, file, (long)from, size, 0, 0, 0); }
long pread(int file, void *to, size_t size, long at) { return falls("pread", 17, file, (long)to, size, at, 0, 0); }
long pwrite(int file, const void *from, size_t size, long at) { return falls("pwrite", 18, file, (long)from, size, at, 0, 0); }
int fsync(int file) { return falls("sync", 74, file, 0, 0, 0, 0, 0); }
int fdatasync(int file) { return falls("sync", 75, file, 0, 0, 0, 0, 0); }
int ftruncate(int file, long size) { return falls("ftruncate", 77, file, size, 0, 0, 0, 0); }
int open(const char *name, int how, int mode) { return falls("open", 2, (long)name, how, mode, 0, 0, 0); }
int flock(int file, int how) { return falls("flock", 73, file, how, 0, 0, 0, 0); }
int statx(int at, const char *name, int how, unsigned mask, void *to) { return falls("statx", 332, at, (long)name, how, mask, (long)to, 0); }
int socket(int domain, int kind, int protocol) { return falls("socket", 41, domain, kind, protocol, 0, 0, 0); }
int bind(int file, const void *address, unsigned size) { return falls("bind", 49, file, (long)address, size, 0, 0, 0); }
int poll(void *files, unsigned long count, int wait) { return falls("poll", 7, (long)files, count, wait, 0, 0, 0); }
long sendto(int file, const void *from, size_t size, int how, const void *to, unsigned length) {
    return falls("sendto", 44, file, (long)from, size, how, (long)to, length);
}
long recvfrom(int file, void *to, size_t size, int how, void *from, unsigned *length) {
    return falls("recvfrom", 45, file, (long)to, size, how, (long)from, (long)length);
}
"""

PLACE = tempfile.TemporaryDirectory()

# What a peer may end with at a fault of each kind of call.
DISK, LINK = (STORE_FAULT, "store fault\n"), (LINK_FAULT, "link fault\n")
PEER_CALLS = {
    "memory": (MEMORY, "memory\n"),
    **dict.fromkeys(("pread", "pwrite", "sync", "ftruncate", "open", "flock", "statx"), DISK),
    **dict.fromkeys(("socket", "bind", "poll", "sendto", "recvfrom"), LINK),
}

CALLS = "tick 1 6\ncall 1 1 over 6b 76\ncall 1 2 get 6b\n"
ALONE = "ensemble 1\npeers 1\nview 1\n" + CALLS

# All three peers stop, one comes back without its last write, and all are asked.
RESTARTED = """\
ensemble 1
peers 3
view 1 2 3
tick 1 6
calm
call 1 1 over 6b 76
calm
stop 1
stop 2
stop 3
revert 3 1
start 1
start 2
start 3
tick 1 6
calm
call 1 2 get 6b
calm
"""

# Jobs with their inputs. The input of an audit is made by a replay.
JOBS = [
    *[("ensemble replay", text.encode()) for text in (ALONE, RESTARTED, REVERTED, CHANGED, DEEPENED)],
    ("ensemble replay", RESTARTED.replace("ensemble 1", "ensemble 3").encode()),
    ("ensemble generate 7 20 summary", b""),
    ("ensemble generate 7 20 schedule", b""),
    ("ensemble cluster 1 40000 1", CALLS.encode()),
    ("ensemble root", (TOP / "examples" / "a-root" / "script").read_bytes()),
    ("ensemble check", spell_backup([item for items in samples() for item in items if len(items) > 60])),
    ("ensemble audit", None),
    ("trace", CHANGED.encode()),
    ("chart", RESTARTED.encode()),
]
# The entries and objects of a backup that is restored over a peer's files.
BACKUP_ITEMS = [item(b"a", 9, b"1"), item(b"b", 9, None), item(b"e", 9, b"", has_object=False)]
JOB_CALLS = {"memory": (MEMORY, "memory\n"), "read": (READ_FAULT, "read fault\n"), "write": (WRITE_FAULT, None)}


@functools.cache
def library():
    """The library, or None where there is no compiler."""
    source, made = Path(PLACE.name) / "calls.c", Path(PLACE.name) / "calls.so"
    source.write_text(LIBRARY)
    rt = shutil.which("rt")
    kit = Path(rt).resolve().parent.parent if rt else Path("/")
    own = f"{kit}/toolchain/bin/clang --target=x86_64-unknown-linux-gnu -fuse-ld=lld --sysroot={kit}/toolchain"
    for compiler in ("cc", own):
        words = [*compiler.split(), *"-w -O1 -fno-builtin -fPIC -shared -nostdlib".split(), source, "-o", made]
        with contextlib.suppress(OSError):
            if subprocess.run(words, stderr=subprocess.DEVNULL).returncode == 0:
                return made
    return None


def failing(call, at, how):
    return {**os.environ, "LD_PRELOAD": str(library()), "HOSTILE_CALL": call, "HOSTILE_AT": str(at), "HOSTILE_HOW": how}


def count_of(call, work):
    """How many calls of this kind a process makes that is given this environment."""
    with tempfile.TemporaryDirectory() as place:
        told = Path(place) / "told"
        work({**failing(call, 0, "f"), "HOSTILE_TOLD": str(told)})
        return int.from_bytes(told.read_bytes(), "little")


def job_ends_rightly(words, data, call, at, wanted):
    """What is wrong with a job of which one call fails, or None."""
    status, text = run(words, data, env=failing(call, at, "f"))
    fault, line = JOB_CALLS[call]
    if (status, text) == wanted or (status, text) == (fault, line):
        return None
    if line is None and status == fault and wanted[1].startswith(text):
        return None
    return f"wanted {fault} or {wanted[0]}, got {status}: {text[-200:]!r}"


def works_rightly(word, data, images, call, at, how):
    """What is wrong with a word on a peer's files of which one call fails or ends it, or None. The facts stay, and the
    tree is the old one, or after a restore that of the backup."""
    with Ensemble() as it:
        it.put_back(images)
        status, text = it.work(word, data, env=failing(call, at, how))
        left = Images(*it.images())
    trees = [tree_of(images), *([[entry for entry, _ in BACKUP_ITEMS]] if word == "restore" else [])]
    if left.facts != images.facts or tree_of(left) not in trees:
        return "the facts were changed, or the tree is neither the old one nor the new one"
    fault, line = PEER_CALLS[call]
    if (status, text) == (fault, line.encode()) or (how, status, text) == ("k", -9, b""):
        return None
    wanted = spell_backup(items_of(images)) if word == "backup" else b"entries 3 objects 2\n"
    is_right = (status, text, tree_of(left)) == (DONE, wanted, trees[-1])
    return None if is_right else f"got {status}: {text[-200:]!r}"


def tree_of(images):
    """The entries of the tree on these files, in order."""
    items = items_of(images)
    return None if items is None else [entry for entry, _ in items]


def peer_ends_rightly(call, at, how):
    """What is wrong with a peer alone of which one call fails or ends it while a client writes, or None."""
    with Ensemble() as it:
        it.start(env=failing(call, at, how))
        writer = Puts(it)
        if it.processes[1].poll() is None:
            writer.put(8, patience=4)
        if how == "k" or it.processes[1].poll() is None and len(writer.answered) == len(writer.tried):
            it.kill()
        elif it.processes[1].poll() is not None or writer.tried != writer.answered:
            ended = it.end(seconds=10)
            if ended != PEER_CALLS[call]:
                return f"wanted {PEER_CALLS[call]}, got {ended}"
        return writer.complaint()


def thread_cases():
    """Threads that cannot be started: what one would have done is then done without it."""
    words, data = "ensemble check", spell_backup([item(b"%04d" % number, 1, b"v") for number in range(3000)])
    wanted = run(words, data)
    for at in range(1, 2 + count_of("thread", lambda env: run(words, data, env=env))):
        test = functools.partial(lambda at: differs(run(words, data, env=failing("thread", at, "f")), wanted), at)
        yield f"{words}, thread {at}", test


def count_of_work(call, word, data, images):
    """How many calls of this kind a word on a peer's files makes."""
    with Ensemble() as it:
        it.put_back(images)
        return count_of(call, lambda env: it.work(word, data, env=env))


def places(chance, most, count):
    """The first numbers of calls, and some more."""
    return sorted({1, 2, 3, *(chance.randrange(4, most) for _ in range(count))})


def cases(long):
    if library() is None:
        print("hostile calls: no compiler, so no case")
        return
    chance = random.Random(59)
    for words, data in JOBS:
        if data is None:
            data = CHANGED.encode() + b"answers\n" + run("ensemble replay", CHANGED.encode())[1].encode()
        wanted = run(words, data)
        for call in JOB_CALLS:
            most = 1 + count_of(call, lambda env, words=words, data=data: run(words, data, env=env))
            for at in range(1, most + 1) if long or most < 12 else places(chance, most, 12):
                yield f"{words}, {call} {at}", functools.partial(job_ends_rightly, words, data, call, at, wanted)
    yield from thread_cases()
    images, backup = prepare().after, spell_backup(BACKUP_ITEMS)
    for word, data in [("backup", b""), ("restore", backup)]:
        for call in ("memory", "pread", "pwrite", "sync", "open", "flock", "statx"):
            most = 1 + count_of_work(call, word, data, images)
            for how in "f" if call == "memory" else "fek":
                for at in range(1, most + 1) if long or most < 6 else places(chance, most, 4):
                    test = functools.partial(works_rightly, word, data, images, call, at, how)
                    yield f"{word}, {call} {at} {how}", test
    for call in PEER_CALLS:
        most = {"pwrite": 120, "pread": 120, "sync": 60, "memory": 3000, "recvfrom": 900, "poll": 500}.get(call, 12)
        for how in ["f"] if call == "memory" else "fek":
            for at in range(1, most) if long else places(chance, most, 6 if call in ("pwrite", "pread", "sync") else 2):
                yield f"a peer, {call} {at} {how}", functools.partial(peer_ends_rightly, call, at, how)
