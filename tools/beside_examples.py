#!/usr/bin/env python3
"""Makes small databases of which SQLite and dbck do not say the same: beside_examples.py FOLDER. It needs the sqlite3 program.

Each is a sound database of which a few bytes are changed, but vacuumed-view.db, which is as SQLite wrote it. docs/SQLITE.md says what SQLite and dbck say of each, and why.
"""

import pathlib
import subprocess
import sys
import tempfile

PAGE = 512


def made(sql):
    """The bytes of a database that sqlite3 makes."""
    with tempfile.TemporaryDirectory() as folder:
        path = pathlib.Path(folder) / "made.db"
        text = f"PRAGMA page_size = {PAGE}; {sql}"
        subprocess.run(["sqlite3", "-batch", "-init", "/dev/null", path], input=text, text=True, stdout=subprocess.DEVNULL, check=True)
        return bytearray(path.read_bytes())


def start(page):
    return (page - 1) * PAGE


def number(data, at, size):
    return int.from_bytes(data[at : at + size], "big")


def put(data, at, size, value):
    data[at : at + size] = value.to_bytes(size, "big")


ROWS = "INSERT INTO t VALUES (1, 'row 1'), (2, 'row 2'), (3, 'row 3');"
TABLE = "CREATE TABLE t(a, b);" + ROWS
INDEXED = "CREATE TABLE t(a, b); CREATE INDEX k ON t(b);" + ROWS


def with_header(at, size, value):
    """A table in a database with another number in the header."""
    data = made(TABLE)
    put(data, at, size, value)
    return data


def with_text(sql, old, new, times=1):
    """A database with another text of the same length, at each of so many places."""
    data = made(sql)
    assert len(old) == len(new) and data.count(old) == times
    return data.replace(old, new)


def end_in_last_page():
    """The only row ends with zeros, and so does its page. The last 40 of them are gone."""
    return made("CREATE TABLE t(a); INSERT INTO t VALUES (zeroblob(200));")[:-40]


def end_after_last_page():
    """A file that does not state its size, with 100 bytes after its last page."""
    return with_header(28, 4, 0) + bytes(100)


def deleted():
    """A table of two rows, on page 2, with the bytes of a third one between them, and where the freeblock of these is."""
    data = made("CREATE TABLE t(a); INSERT INTO t VALUES ('a'), (zeroblob(80)), ('b'); DELETE FROM t WHERE rowid = 2;")
    return data, start(2) + number(data, start(2) + 1, 2)


def many_fragments():
    """The bytes of a deleted row are counted as fragments, and are no freeblock."""
    data, block = deleted()
    put(data, start(2) + 1, 2, 0)
    put(data, start(2) + 7, 1, number(data, block + 2, 2))
    return data


def near_freeblocks():
    """A freeblock is cut in two, with two fragmented bytes between them."""
    data, block = deleted()
    size = number(data, block + 2, 2)
    put(data, block, 2, block + 42 - start(2))
    put(data, block + 2, 2, 40)
    put(data, block + 42, 2, 0)
    put(data, block + 44, 2, size - 42)
    put(data, start(2) + 7, 1, 2)
    return data


def index_order():
    """The first two cells of the index, on page 3, change places."""
    data = made(INDEXED)
    first = start(3) + 8
    data[first : first + 4] = data[first + 2 : first + 4] + data[first : first + 2]
    return data


def unreadable_row():
    """The record of the last row, on page 2, has a header that is longer than the record."""
    data = made(TABLE)
    cell = start(2) + number(data, start(2) + 5, 2)
    put(data, cell + 2, 1, 100)
    return data


def root_after_others():
    """The root of u and the overflow page of t change places, pages 4 and 5, with all that refers to them."""
    sql = "PRAGMA auto_vacuum = full; CREATE TABLE t(a); CREATE TABLE u(a); INSERT INTO t VALUES (zeroblob(700));"
    data = made(sql)
    assert len(data) == start(6)
    data[start(4) : start(6)] = data[start(5) : start(6)] + data[start(4) : start(5)]
    data = data.replace(b"tableuu\x04", b"tableuu\x05")
    put(data, 52, 4, 5)
    put(data, start(2) + 5, 5, (3 << 32) + 3)
    put(data, start(2) + 10, 5, 1 << 32)
    cell = start(3) + number(data, start(3) + 5, 2)
    overflow = data.index((5).to_bytes(4, "big"), cell)
    put(data, overflow, 4, 4)
    return data


def databases():
    """Each database by its name."""
    return {
        "write-version.db": with_header(18, 1, 3),
        "text-encoding.db": with_header(56, 4, 5),
        "reserved-header-byte.db": with_header(72, 1, 1),
        "no-schema-format.db": with_header(44, 4, 0),
        "vacuumed-view.db": made("CREATE VIEW v AS SELECT 1 AS a; VACUUM;"),
        "less-than-a-page.db": made("VACUUM;")[:200],
        "end-in-last-page.db": end_in_last_page(),
        "end-after-last-page.db": end_after_last_page(),
        "many-fragments.db": many_fragments(),
        "near-freeblocks.db": near_freeblocks(),
        "name-not-text.db": with_text("CREATE TABLE zz(a);", b"zz", b"z\xff", 3),
        "other-type.db": with_text(TABLE, b"tablett", b"TABLEtt"),
        "root-after-others.db": root_after_others(),
        "index-order.db": index_order(),
        "missing-from-index.db": with_text(INDEXED, b"\x03row 3", b"\x03row 8"),
        "null-value.db": with_text("CREATE TABLE t(a /* null */); INSERT INTO t VALUES (NULL);", b"/* null */", b"NOT NULL  "),
        "unreadable-row.db": unreadable_row(),
        "schema-text.db": with_text(TABLE, b"CREATE TABLE t(a, b)", b"CREATE TABLE t(a, b,"),
    }


def main():
    folder = pathlib.Path(sys.argv[1])
    folder.mkdir(parents=True, exist_ok=True)
    for name, data in databases().items():
        (folder / name).write_bytes(data)


if __name__ == "__main__":
    main()
