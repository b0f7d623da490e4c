"""Backups of hostile files, and hostile backups on files: the words `backup` and `restore` on a peer that has stopped.

What `backup` has to print of files is what the readers of docs/formats.md make of them: the tree without regard to the
seal, in either version, and each object that matches its entry. A backup that does not pass changes no file; one that
does leaves its tree under the top record, in version two, and its objects.
"""
import random

from backups import item
from disks import Images, damage_cases, prepare, serves_rightly
from formats import (
    BACKUP_CAUSES,
    Wrong,
    build,
    entry_of,
    read_backup,
    read_either_tree,
    read_log,
    read_object,
    spell_backup,
    spell_object,
)
from running import BACKUP, DONE, STORE_FAULT, Ensemble, differs


def items_of(images):
    """The entries of a tree, each with its object if the file of objects has it, or None where the tree is damaged."""
    nodes, objects = read_log(images.nodes)[0], read_log(images.objects)[0]
    root = nodes.get(b"", b"")
    entries = read_either_tree(nodes, root) if len(root) == 16 else None
    return None if entries is None else [(entry, matching(entry, objects)) for _, entry in sorted(entries.items())]


def matching(entry, objects):
    try:
        it = read_object(objects.get(entry[0], b""))
    except Wrong:
        return None
    return it if entry_of(it) == entry else None


def backs_up_rightly(images):
    """What is wrong with the backup of these files, or None."""
    items = items_of(images)
    wanted = (BACKUP, b"backup 9\n") if items is None else (DONE, spell_backup(items))
    with Ensemble() as it:
        it.put_back(images)
        ended = it.work("backup")
        left = Images(*it.images())
    if left.facts != images.facts:
        return "the file of facts was changed"
    return differs(ended, wanted)


def restores_rightly(images, data):
    """What is wrong with what a restore of these bytes makes of these files, or None."""
    with Ensemble() as it:
        it.put_back(images)
        status, text = it.work("restore", data)
        left = Images(*it.images())
    try:
        items = read_backup(data)
    except Wrong as wrong:
        wanted = (BACKUP, f"backup {BACKUP_CAUSES[wrong.fault]}\n".encode()), images
        return differs(((status, text), left), wanted)
    stored, top = build([entry for entry, _ in items], 2)
    objects = {it.key: spell_object(it) for _, it in items if it is not None}
    nodes, kept = read_log(left.nodes)[0], read_log(left.objects)[0]
    if (status, text) != (DONE, f"entries {len(items)} objects {len(objects)}\n".encode()):
        return f"ended with {status} and {text}"
    if left.facts != images.facts:
        return "the file of facts was changed"
    if nodes.get(b"") != top or not stored.items() <= nodes.items():
        return "the tree of the backup is not there"
    return differs(kept, read_log(images.objects)[0] | objects)


def comes_back(images):
    """A backup that is restored over the files that it was made of is made of them again."""
    data = spell_backup(items_of(images))
    with Ensemble() as it:
        it.put_back(images)
        it.work("restore", data)
        return differs(it.work("backup"), (DONE, data))


def is_locked(images):
    """The files of a peer that runs are neither backed up nor restored."""
    with Ensemble() as it:
        it.put_back(images)
        it.start()
        data = spell_backup(items_of(images))
        got = it.work("backup"), it.work("restore", data)
        return differs(got, 2 * ((STORE_FAULT, b"store fault\n"),))


def restored(images):
    """The files after a restore of their own backup: under another top record than the seal."""
    with Ensemble() as it:
        it.put_back(images)
        it.work("restore", spell_backup(items_of(images)))
        return Images(*it.images())


def cases(long):
    chance = random.Random(58)
    prepared = prepare()
    base = prepared.after
    yield "of whole files", lambda: backs_up_rightly(base)
    yield "no facts", lambda: backs_up_rightly(base._replace(facts=b""))
    yield "a restore and a backup", lambda: comes_back(base)
    yield "a peer that runs", lambda: is_locked(base)
    # It takes its tree for damaged, and nobody has another.
    yield "a peer alone after a restore", lambda: serves_rightly(restored(base))
    for name, images in damage_cases(prepared, chance, long):
        yield f"of files, {name}", lambda images=images: backs_up_rightly(images)
    data = spell_backup([item(b"a", 9, b"1"), item(b"b", 9, None), item(b"e", 9, b"", has_object=False)])
    for target in (base, Images(base.facts, b"", b""), base._replace(nodes=base.objects), Images(b"", b"", b"")):
        for backup in (data, spell_backup([]), spell_backup(items_of(base))):
            yield "a restore", lambda target=target, backup=backup: restores_rightly(target, backup)
    for _ in range(2000 if long else 40):
        at = chance.randrange(len(data))
        changed = chance.choice([data[:at], data[:at] + bytes([chance.randrange(256)]) + data[at + 1 :]])
        yield "a hostile restore", lambda changed=changed: restores_rightly(base, changed)
