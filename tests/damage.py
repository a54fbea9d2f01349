#!/usr/bin/env python3
"""Makes damaged databases: damage.py [--of DATABASES] [--copies N] FOLDER.

It puts sound databases into FOLDER, and for each of them and each kind of damage N copies (25 without --copies), each with one
damage. The sound ones are made by the sqlite3 program, or are copies of those in the folder DATABASES. What happens to a copy
depends on the bytes and the name of its database, the kind of damage and the number of the copy alone, so a second run makes
the same files of the same databases.
"""

import argparse
import pathlib
import random
import subprocess


# Databases.

def rows(count, table, values):
    """A statement that puts so many rows into a table. `values` may use the number i of the row, from 1."""
    numbers = f"WITH RECURSIVE n(i) AS (SELECT 1 UNION ALL SELECT i + 1 FROM n WHERE i < {count})"
    return f"{numbers} INSERT INTO {table} SELECT {values} FROM n;"


def short(table):
    """A table of short rows, and its index."""
    return (
        f"CREATE TABLE {table}(a INTEGER PRIMARY KEY, b TEXT NOT NULL); CREATE INDEX {table}_b ON {table}(b);"
        + rows(200, table, "i, 'row ' || i * 7919 % 200")
    )


def long(table):
    """A table of rows with overflow pages, and its index, which has some too."""
    return f"CREATE TABLE {table}(a, b); CREATE INDEX {table}_b ON {table}(b);" + rows(
        30, table, "i, printf('%.*c', i * 50, 'x') || i"
    )


def freed():
    """Two tables of which rows were deleted, so that pages are free."""
    return (
        "CREATE TABLE t(a, b); CREATE TABLE u(a, b); CREATE INDEX k ON u(b);"
        + rows(100, "t", "i, zeroblob(30 * (i % 40))")
        + rows(100, "u", "i, 'some ' || i")
        + "DELETE FROM t WHERE a % 3 > 0; DELETE FROM u WHERE a > 80;"
    )


def without_rowid():
    """A table whose rows are in the order of a key of two columns."""
    return "CREATE TABLE t(a, b, c, PRIMARY KEY (b, a)) WITHOUT ROWID;" + rows(
        200, "t", "i, 'key ' || i * 7919 % 200, i / 3"
    )


def ruled():
    """Tables with types and constraints, an index of some rows, and one of an expression."""
    return (
        "CREATE TABLE t(a INTEGER PRIMARY KEY, b TEXT CHECK (length(b) > 2), c REAL NOT NULL, d INT UNIQUE, e ANY) STRICT;"
        + rows(120, "t", "i, 'text ' || i, i / 8.0, i * 3, CASE i % 3 WHEN 0 THEN i WHEN 1 THEN 'any' END")
        + "CREATE TABLE u(a, b INTEGER NOT NULL, c TEXT);"
        + rows(60, "u", "i, i * i, 'c' || i")
        + "CREATE INDEX p ON u(c) WHERE b > 100; CREATE INDEX e ON u(b + 1);"
    )


def words(module):
    """A table for the search of words, by fts3 or fts5."""
    return f"CREATE VIRTUAL TABLE f USING {module}(a, b);" + rows(
        60, "f", "'word' || i % 7 || ' and ' || i, 'more text ' || i * 31"
    )


def deep():
    """A table tree of four levels, with rowids on both sides of 0."""
    return "CREATE TABLE t(a INTEGER PRIMARY KEY, b);" + rows(2500, "t", "i * i - 400000, 'b' || i")


def view_last():
    """A schema whose last object is a view, and free pages."""
    return (
        short("t")
        + "CREATE TABLE u(a);"
        + rows(90, "u", "zeroblob(300)")
        + "DROP TABLE u; CREATE VIEW v AS SELECT b FROM t;"
    )


def views():
    """A schema of views alone, over several pages. VACUUM then writes 0 as its format, and keeps the encoding."""
    texts = "".join(f"CREATE VIEW v{view} AS SELECT {view} AS a, 'some text' AS b;" for view in range(12))
    return texts + "COMMIT; VACUUM; BEGIN;"


# By name: the page size, settings, and what is in it.
DATABASES = {
    "pages-512": (512, "", short("t")),
    "pages-1024": (1024, "", short("t")),
    "pages-4096": (4096, "", short("t")),
    "pages-65536": (65536, "", short("t")),
    "deep": (512, "", deep()),
    "full-vacuum": (512, "PRAGMA auto_vacuum = full;", short("t") + long("u")),
    "incremental-vacuum": (512, "PRAGMA auto_vacuum = incremental;", freed()),
    "without-rowid-512": (512, "", without_rowid()),
    "without-rowid-4096": (4096, "", without_rowid()),
    "overflow-512": (512, "", long("t")),
    "overflow-1024": (1024, "", long("t")),
    "freelist-512": (512, "", freed()),
    "freelist-1024": (1024, "", freed()),
    "utf-16le": (512, "PRAGMA encoding = 'UTF-16le';", short("t")),
    "utf-16be": (1024, "PRAGMA encoding = 'UTF-16be';", short("t")),
    "fts3": (1024, "", words("fts3")),
    "fts5": (1024, "", words("fts5")),
    "ruled": (1024, "", ruled()),
    "view-last": (512, "", view_last()),
    "views": (512, "", views()),
    "wal": (1024, "PRAGMA journal_mode = WAL;", short("t")),
}


def by_sqlite(folder):
    """Makes the databases by sqlite3 in the folder, and gives their paths."""
    paths = []
    for name, (page_size, settings, content) in DATABASES.items():
        path = folder / f"{name}.db"
        path.unlink(missing_ok=True)
        sql = f"PRAGMA page_size = {page_size}; {settings} BEGIN; {content} COMMIT;"
        subprocess.run(["sqlite3", "-batch", "-init", "/dev/null", path], input=sql, text=True, stdout=subprocess.DEVNULL, check=True)
        paths.append(path)
    return paths


def of_folder(databases, folder):
    """Copies the databases of a folder, and gives the paths of the copies."""
    paths = []
    for source in sorted(databases.glob("*.db")):
        path = folder / source.name
        path.write_bytes(source.read_bytes())
        paths.append(path)
    return paths


class Chance:
    """Numbers by a seed. The standard library keeps those of `random` the same for one seed, and those of its other calls not."""

    def __init__(self, seed):
        self.chance = random.Random(seed).random

    def below(self, end):
        """A number of 0 to end - 1."""
        return int(self.chance() * end)

    def one_of(self, choices):
        return choices[self.below(len(choices))]


# The places of a database that damages need.

class Database(Chance):
    """The bytes of a database, and chances that its name decides."""

    def __init__(self, data, seed):
        super().__init__(seed)
        self.data = bytearray(data)
        stored = self.number(16, 2)
        self.page_size = 65536 if stored == 1 else stored
        self.pages = len(data) // self.page_size

    def number(self, at, size):
        return int.from_bytes(self.data[at : at + size], "big")

    def put(self, at, size, value):
        self.data[at : at + size] = (value % (1 << (8 * size))).to_bytes(size, "big")

    def start(self, page):
        return (page - 1) * self.page_size

    def head(self, page):
        """Where the head of a page begins, were it a page of a tree."""
        return 100 if page == 1 else self.start(page)

    def kind(self, page):
        """2, 5, 10 or 13 of a page that begins as one of a tree does, else 0."""
        kind = self.data[self.head(page)]
        return kind if kind in (2, 5, 10, 13) else 0

    def cell_pointers(self, page):
        """Where the cell pointers of a page of a tree are."""
        head = self.head(page)
        first = head + (12 if self.kind(page) in (2, 5) else 8)
        return [first + 2 * cell for cell in range(self.number(head + 3, 2))]

    def page_numbers(self, page):
        """Where a page refers to others: the children of a page of a tree, or the first number of another page."""
        if self.kind(page) in (10, 13):
            return []
        if self.kind(page) == 0:
            return [self.start(page)]
        children = [self.start(page) + self.number(at, 2) for at in self.cell_pointers(page)]
        return [self.head(page) + 8] + [at for at in children if at + 4 <= len(self.data)]


# Damages. Each changes the bytes of a database.

def a_byte(db):
    """One byte is another: half the time anywhere, half the time in the head or the cell pointers of a page."""
    page = 1 + db.below(db.pages)
    at = db.below(len(db.data)) if db.chance() < 0.5 else db.head(page) + db.below(24)
    db.data[at] ^= 1 + db.below(255)


def a_pointer(db):
    """One page number is that of another page, or of none. The first trunk of the freelist is one of them."""
    places = [32] + [at for page in range(1, db.pages + 1) for at in db.page_numbers(page)]
    db.put(db.one_of(places), 4, db.below(db.pages + 3))


def a_swapped_pair(db):
    """Two pages, or two cell pointers of a page, are in each other's place."""
    tree = [page for page in range(1, db.pages + 1) if len(db.cell_pointers(page)) > 1]
    if tree and db.chance() < 0.5:
        pointers = db.cell_pointers(db.one_of(tree))
        one, other, size = db.one_of(pointers), db.one_of(pointers), 2
    else:
        one, other, size = db.start(1 + db.below(db.pages)), db.start(1 + db.below(db.pages)), db.page_size
    kept = db.data[one : one + size]
    db.data[one : one + size] = db.data[other : other + size]
    db.data[other : other + size] = kept


def a_torn_page(db):
    """A page ends as another does, from one eighth of it on or later."""
    page, other = 1 + db.below(db.pages), 1 + db.below(db.pages)
    kept = (1 + db.below(7)) * db.page_size // 8
    end = db.start(other + 1)
    db.data[db.start(page) + kept : db.start(page + 1)] = db.data[db.start(other) + kept : end]


def a_run_of_zeros(db):
    """Up to a page of zeros, anywhere."""
    at = db.below(len(db.data))
    size = min(1 + db.below(db.page_size), len(db.data) - at)
    db.data[at : at + size] = bytes(size)


def a_truncation(db):
    """The file ends too early, half the time after a whole page."""
    size = db.below(len(db.data)) if db.chance() < 0.5 else db.page_size * db.below(db.pages)
    del db.data[size:]


# The numbers of the header: where, and how many bytes.
HEADER = [(16, 2), (18, 1), (19, 1), (20, 1), (21, 1), (22, 1), (23, 1), (24, 4), (28, 4), (32, 4), (36, 4), (40, 4), (44, 4)]
HEADER += [(48, 4), (52, 4), (56, 4), (60, 4), (64, 4), (68, 4), (72, 4), (92, 4), (96, 4)]


def a_header_number(db):
    """A number of the header is another."""
    at, size = db.one_of(HEADER)
    value = db.number(at, size)
    db.put(at, size, db.one_of([0, 1, 2, value + 1, value - 1, value * 2, db.pages, db.below(256), -1]))


DAMAGES = {
    "byte": a_byte,
    "pointer": a_pointer,
    "swap": a_swapped_pair,
    "torn": a_torn_page,
    "zeros": a_run_of_zeros,
    "cut": a_truncation,
    "header": a_header_number,
}


def damaged_copies(path, copies):
    """Writes the damaged copies of a database beside it."""
    data = path.read_bytes()
    for kind, damage in DAMAGES.items():
        for copy in range(copies):
            name = f"{path.stem}-{kind}-{copy:03}"
            database = Database(data, name)
            damage(database)
            path.with_name(f"{name}.db").write_bytes(database.data)


def main():
    words = argparse.ArgumentParser(description="Makes damaged databases.")
    words.add_argument("--of", type=pathlib.Path, metavar="DATABASES", help="a folder of databases; without it sqlite3 makes them")
    words.add_argument("--copies", type=int, default=25, metavar="N", help="of each database and kind of damage (25)")
    words.add_argument("folder", type=pathlib.Path, metavar="FOLDER", help="where they go")
    given = words.parse_args()
    given.folder.mkdir(parents=True, exist_ok=True)
    paths = of_folder(given.of, given.folder) if given.of else by_sqlite(given.folder)
    for path in paths:
        damaged_copies(path, given.copies)
    print(f"{len(paths)} databases, and {len(paths) * len(DAMAGES) * given.copies} damaged copies")


if __name__ == "__main__":
    main()
