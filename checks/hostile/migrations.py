"""Hostile migrations: the files of a peer whose tree has version one, whole and damaged, and left by a kill or a failing
call while the tree is made anew.

A peer that starts with such a tree makes it anew in version two if every node of it verifies and no key is there twice;
otherwise it changes no file, and its root counts as damaged (docs/schedules.md). What the files then have, and what each
key is answered, is what the readers of docs/formats.md say.
"""
import functools
import random

from calls import PEER_CALLS, failing, library
from disks import KEYS, Images, Prepared, prepare, serves_rightly, stages, wanted_of
from formats import (
    build,
    build_over,
    md5,
    read_either_tree,
    read_log,
    read_saved_fact,
    read_slots,
    read_tree,
    segment_of,
    spell_fact,
    spell_record,
    spell_slot,
)
from running import BACKUP, DONE, Ensemble, differs

# How a peer ends that nobody sent a frame, and one that was killed.
SERVED, KILLED = (DONE, "peer 1 frames 0 refused 0\n"), (-9, "")


def entries_of(images):
    """The entries of a whole tree, by key."""
    nodes = read_log(images.nodes)[0]
    return read_either_tree(nodes, nodes[b""])


def with_tree(images, tree, seal=None, is_sealed=True):
    """The files with this tree, nodes under their digests and the digest of the root. The seal is that digest if no other
    one is given."""
    stored, top = tree
    serial, record = read_slots(images.facts)
    fact = read_saved_fact(record)._replace(seal=(seal or top) if is_sealed else None)
    nodes = b"".join(spell_record(digest, node) for digest, node in stored.items())
    return images._replace(facts=spell_slot(serial, spell_fact(fact)), nodes=nodes + spell_record(b"", top))


def after_one_turn(images):
    """How a peer ended that started on these files and made one turn, and the files that it left."""
    with Ensemble() as it:
        it.put_back(images)
        it.start(turns=1)
        return it.end(), Images(*it.images())


def migrates_rightly(images):
    """What is wrong with the files that a start leaves of these, whose tree has version one and is whole, or None."""
    ended, left = after_one_turn(images)
    entries, (stored, top) = entries_of(images), build(entries_of(images).values())
    serial, record = read_slots(images.facts)
    fact = read_saved_fact(record)
    contents = read_log(left.nodes)[0]
    if ended != SERVED:
        return f"ended with {ended}"
    if left.objects != images.objects or not left.nodes.startswith(images.nodes):
        return "what was on the disk was changed"
    if contents[b""] != top or not stored.items() <= contents.items() or read_tree(contents, top) != entries:
        return "the tree of version two is not there"
    if fact.seal is None:
        return differs(left.facts, images.facts)
    return differs(read_slots(left.facts), (serial + 1, spell_fact(fact._replace(seal=top))))


def stays(images, backup=None):
    """What is wrong with what a start makes of these files, whose tree has version one and is damaged, or None."""
    ended, left = after_one_turn(images)
    if (ended, left) != (SERVED, images):
        return f"ended with {ended}, or changed a file"
    if backup is not None:
        with Ensemble() as it:
            it.put_back(images)
            if it.work("backup") != backup:
                return "the backup differs"
    return serves_rightly(images, {KEYS[0]: "unavailable"})


def with_key_twice(images):
    """The tree of version one in which one key stands in two segments."""
    segments = {}
    for entry in entries_of(images).values():
        segments.setdefault(segment_of(entry[0], 1), []).append(entry)
    entry = entries_of(images)[KEYS[0]]
    other = next(index for index in range(16**3) if index not in segments)
    return with_tree(images, build_over({**segments, other: [entry]}, 1))


def damaged(images, chance, long):
    """The tree of version one with each node left out or changed, and under another seal."""
    contents, top = build(entries_of(images).values(), 1)
    digests = sorted(contents)
    for digest in digests if long else chance.sample(digests, 5):
        node = contents[digest]
        left = {name: content for name, content in contents.items() if name != digest}
        yield "a node is missing", with_tree(images, (left, top))
        yield "a node has a byte more", with_tree(images, ({**left, digest: node + b"\0"}, top))
        flipped = bytes([*node[:-1], node[-1] ^ 1])
        yield "a node has another byte", with_tree(images, ({**left, digest: flipped}, top), is_sealed=False)
    yield "another seal", with_tree(images, (contents, top), seal=md5(b""))
    yield "the seal of version two", with_tree(images, (contents, top), seal=build(entries_of(images).values())[1])


def left_by_kills(sealed, unsealed):
    """The files after each byte that a migration writes: of the nodes, of the top record, and of the fact if it has a
    seal."""
    after = after_one_turn(unsealed)[1]
    found = [unsealed._replace(nodes=after.nodes[:size]) for size in range(len(unsealed.nodes), len(after.nodes) + 1)]
    return found + [images for _, images in stages(Prepared(sealed, after_one_turn(sealed)[1], b"", b"", b""))]


def fails_in_migration(images, call, at, how):
    """What is wrong with what a start leaves of these files of which one call fails or ends it, or None: the old tree,
    or the new one, which counts as damaged if its seal was not saved."""
    with Ensemble() as it:
        it.put_back(images)
        it.start(turns=1, env=failing(call, at, how))
        ended, left = it.end(), Images(*it.images())
    if ended not in (PEER_CALLS[call], SERVED) and (how, ended) != ("k", KILLED):
        return f"ended with {ended}"
    wanted = wanted_of(left)
    if "unavailable" in wanted.values():
        root, fact = read_log(left.nodes)[0][b""], read_saved_fact(read_slots(left.facts)[1])
        if (root, fact) != (build(entries_of(images).values())[1], read_saved_fact(read_slots(images.facts)[1])):
            return "neither the old tree nor the new one is there"
        wanted = {KEYS[0]: "unavailable"}
    elif wanted != wanted_of(images):
        return differs(wanted, wanted_of(images))
    return serves_rightly(left, wanted)


def cases(long):
    chance = random.Random(61)
    base = prepare().after
    tree = build(entries_of(base).values(), 1)
    sealed, unsealed = with_tree(base, tree), with_tree(base, tree, is_sealed=False)
    for name, images in [("with a seal", sealed), ("without one", unsealed)]:
        yield f"whole, {name}", lambda images=images: migrates_rightly(images) or serves_rightly(images)
    twice = with_key_twice(base)
    yield "a key twice", lambda: stays(twice, backup=(BACKUP, b"backup 4\n"))
    for name, images in damaged(base, chance, long):
        yield name, lambda images=images: stays(images)
    found = left_by_kills(sealed, unsealed)
    for images in found if long else chance.sample(found, 40):
        yield "killed", lambda images=images: serves_rightly(images)
    if library() is None:
        return
    for call, most in {"pwrite": 40, "sync": 8, "pread": 30, "memory": 250}.items():
        for how in "f" if call == "memory" else "fek":
            for at in range(1, most) if long else sorted(chance.sample(range(1, most), 4)):
                test = functools.partial(fails_in_migration, sealed, call, at, how)
                yield f"a migration, {call} {at} {how}", test
