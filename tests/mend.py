#!/usr/bin/env python3
"""Overwrites numbers of databases, and counts how many `dbck mend` finds again:
mend.py [--copies N] [--first N] [--shape NAME] [--list FILE] DBCK FOLDER.

It makes the databases of injuries.py in FOLDER, and of each N copies (3 without --copies) for each kind of number, by a seed that is the
number of the copy. --first begins at another copy than 0, for files that nobody has looked at yet. Only copies with a fault are counted, and
those that are refused by themselves. The changes that `mend` prints are made in a copy, by the line alone, as its reader would. Where `mend`
says `ok`, `dbck check` has to say `ok` of that copy; the bytes that it says were there have to be there; and it has to end as `check` does:
else the status is 1. A row of the table that is printed has, for one kind, the files, those made sound, and those that are byte for byte as
before the injury. In each row at least 90 of 100 files, rounded down, have to be sound, and as before (60 where three cell pointers are
wrong), or the status is 1 too: docs/REPAIR.md has at least 98 and 96 of each other kind, and 90 of that one.
"""

import argparse
import pathlib
import re
import subprocess
import sys

import damage
import injuries


def references(db):
    """Where the file has the number of a page: of children, in overflow pages and their cells, in trunks, and in rows of the schema."""
    places = [(at, 4) for page in db.of_kind("internal") for at in db.page_numbers(page)]
    overflow = [row for row in db.rows if row[3] == "overflow"]
    places += [(db.start(int(row[2])), 4) for row in overflow]
    for row in overflow:
        path, cell = row[1].rsplit("/", 1)
        if row[1].endswith("+000000"):
            owner = next(int(other[2]) for other in db.rows if other[0] == row[0] and other[1] == path + "/")
            begin = db.cells(owner)[int(cell.split("+")[0], 16)]
            places.append((db.data.index(int(row[2]).to_bytes(4, "big"), begin), 4))
    for trunk in db.of_kind("trunk"):
        at = db.start(trunk)
        places += [(at, 4), *((at + 8 + 4 * leaf, 4) for leaf in range(db.number(at + 4, 4)))]
    return places


def overwrite(db, at, size):
    """Zero, another page, a number at random, or one other bit."""
    old = db.number(at, size)
    while db.number(at, size) == old:
        db.put(at, size, db.one_of([0, 1 + db.below(db.pages), db.below(1 << (8 * size)), old ^ 1 << db.below(8 * size)]))


def overwrite_some(count, places_of):
    """So many numbers of those that places_of finds, if there are as many."""
    def injure(db):
        places = places_of(db)
        if len(places) < count:
            return True
        for _ in range(count):
            overwrite(db, *places.pop(db.below(len(places))))
    return injure


def overwrite_head(at, size):
    def injure(db):
        overwrite(db, db.head(db.one_of(db.tree_pages())) + at, size)
    return injure


def cell_pointers(count):
    """Those of a page that has so many."""
    def places_of(db):
        pages = [places for places in map(db.cell_pointers, db.tree_pages()) if len(places) >= count]
        return [(at, 2) for at in db.one_of(pages)] if pages else []
    return places_of


def payload_lengths(db):
    """Those of the cells that have one, each of as many bytes as it takes."""
    places = []
    for page in db.tree_pages():
        kind = db.number(db.head(page), 1)
        if kind != 5:
            begins = [cell + (4 if kind == 2 else 0) for cell in db.cells(page)]
            places += [(at, db.varint(at)[1] - at) for at in begins]
    return places


def freeblock_numbers(db):
    """The links to the freeblocks of each page, their sizes, and the end of the list if it has some."""
    places = []
    for page in db.tree_pages():
        link = db.head(page) + 1
        while db.number(link, 2):
            block = db.start(page) + db.number(link, 2)
            places += [(link, 2), (block + 2, 2)]
            link = block
        if link > db.head(page) + 1:
            places.append((link, 2))
    return places


def overwrite_root(db):
    return injuries.schema_root(db)


def overwrite_header(db):
    overwrite(db, *db.one_of(damage.HEADER))


KINDS = {
    "one reference": overwrite_some(1, references),
    "two references": overwrite_some(2, references),
    "three references": overwrite_some(3, references),
    "the type byte of a page": overwrite_head(0, 1),
    "the count of cells": overwrite_head(3, 2),
    "the content start": overwrite_head(5, 2),
    "the count of fragments": overwrite_head(7, 1),
    "a cell pointer": overwrite_some(1, cell_pointers(1)),
    "three cell pointers of a page": overwrite_some(3, cell_pointers(3)),
    "the length of a payload": overwrite_some(1, payload_lengths),
    "a number of a freeblock": overwrite_some(1, freeblock_numbers),
    "a root page in the schema": overwrite_root,
    "a number of the header": overwrite_header,
}


REFUSED = "any of these, and the file is refused"

# Of 100 files of a kind, how many at least have to be made sound, and to be as before.
LEAST = 90
LEAST_OF = {"three cell pointers of a page": 60}


def run(*words):
    return subprocess.run(words, capture_output=True, text=True)


def changes(said):
    """The changes that `mend` prints: where each is, the bytes to put there, and those that are there."""
    lines = re.findall(r"^at byte (\d+) put ([0-9a-f]+) for ([0-9a-f]+)$", said, re.M)
    return [(int(at), bytes.fromhex(new), bytes.fromhex(old)) for at, new, old in lines]


def tried(dbck, file, kind, before, complaints):
    """What `mend` says of a file: None where it has no fault, else whether it was made sound, and whether it is as before."""
    checked = run(dbck, "check", file)
    mended = run(dbck, "mend", file)
    if mended.returncode != checked.returncode:
        complaints.append(f"{file}: mend ends with {mended.returncode}, check with {checked.returncode}: {mended.stderr.strip()}")
    if checked.returncode == 0:
        return None
    data = bytearray(file.read_bytes())
    for at, new, old in changes(mended.stdout):
        if data[at : at + len(old)] != old:
            complaints.append(f"{file}: the bytes at {at} are not {old.hex()}")
        data[at : at + len(new)] = new
    sound = mended.stdout.endswith("\nok\n")
    copy = file.with_suffix(".mended")
    copy.write_bytes(data)
    if sound and run(dbck, "check", copy).stdout != "ok\n":
        complaints.append(f"{file}: mend says ok, and check of the changed copy does not")
    copy.unlink()
    return sound, bytes(data) == before, REFUSED if checked.returncode == 3 else kind


def counts(kind, outcomes, complaints):
    """How many files there are, how many of them are sound, and how many as before."""
    files, sound, as_before = len(outcomes), sum(it[0] for it in outcomes), sum(it[1] for it in outcomes)
    least = files * LEAST_OF.get(kind, LEAST) // 100
    for what, count in (("made sound", sound), ("as before", as_before)):
        if count < least:
            complaints.append(f"{kind}: {count} of {files} files are {what}, fewer than {least}")
    return files, sound, as_before


def main():
    words = argparse.ArgumentParser(description="Counts how many overwritten numbers dbck mend finds again.")
    words.add_argument("--copies", type=int, default=3, metavar="N", help="of each database and kind of number (3)")
    words.add_argument("--first", type=int, default=0, metavar="N", help="the number of the first copy (0)")
    words.add_argument("--shape", action="append", metavar="NAME", help="of this database only; may be repeated")
    words.add_argument("--list", type=argparse.FileType("w"), metavar="FILE", help="where the names of files that stay damaged go")
    words.add_argument("dbck", type=pathlib.Path, metavar="DBCK")
    words.add_argument("folder", type=pathlib.Path, metavar="FOLDER", help="where the files go")
    given = words.parse_args()
    dbck = given.dbck.resolve()
    given.folder.mkdir(parents=True, exist_ok=True)
    found, complaints = {kind: [] for kind in (*KINDS, REFUSED)}, []
    for shape in given.shape or injuries.SHAPES:
        whole = given.folder / f"{shape}.db"
        before, after = injuries.made(whole, shape)
        stat = run(dbck, "stat", "--all", whole).stdout
        for kind, injure in KINDS.items():
            for copy in range(given.first, given.first + given.copies):
                file = given.folder / f"{shape}-{kind.replace(' ', '-')}-{copy}.db"
                patient = injuries.Patient(after, before, stat, file.stem)
                if injure(patient):
                    continue
                file.write_bytes(patient.data)
                outcome = tried(dbck, file, kind, after, complaints)
                if outcome:
                    found[outcome[2]].append(outcome)
                    if given.list and not outcome[1]:
                        print(file.name, "sound" if outcome[0] else "damaged", file=given.list)
                file.unlink() if outcome is None or outcome[1] else None
    print("| Number | Files | made sound | as before |\n|---|---|---|---|")
    for kind, outcomes in [*found.items(), ("all", [it for some in found.values() for it in some])]:
        print("| {} | {} | {} | {} |".format(kind, *counts(kind, outcomes, complaints)))
    print("\n".join(complaints))
    sys.exit(bool(complaints))


if __name__ == "__main__":
    main()
