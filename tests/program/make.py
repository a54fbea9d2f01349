#!/usr/bin/env python3
"""Makes large databases: make.py tables COUNT LENGTH FILE, long GIB FILE, mapped SIZE PAGES FILE, far FILE, high SIZE BITS FILE,
beyond FILE, back COUNT FILE, halves COUNT FILE.

The first three are sound. A `tables` file has as many tables as COUNT, each with a name of LENGTH bytes and an empty page of 512 bytes. First
comes its schema, a tree in levels, and then the roots, in the order of their rows.

A `long` file has pages of 65536 bytes and takes little room, and each page is in use: of a table t, whose pages lie in its second half, or
of the freelist, whose trunks lie all over the file.

A `mapped` file has PAGES pages of SIZE bytes, no more than six trunks can list, and pointer maps. Pages 3 and 4 are roots. Its other pages are in
the freelist, but for the last ones: two leaves of the schema, two of the first table, the overflow pages of a row, and the trunks.

A `far` file has pages of 4096 bytes, and little more than 4 GiB. A row's overflow pages follow one another up to page 40; the others do from
2^32 bytes after page 36 on, to the end of the file. No other page above 2 is in use.

A `high` file has pages of SIZE bytes, of which the leaves of a table, 400 or as many as one page above them leads to, are the last; they follow
one another from 2^BITS bytes on. No other page above 2 is in use.

A `beyond` file has pages of 65536 bytes, and more than 73 GiB. A row's overflow chain is in its last 300 pages.

A `back` file has pages of 16384 bytes, and a row of as many overflow pages as COUNT, each 2^29 bytes before the page that it follows.

In a `halves` file the row takes such pages by turns: the last that is left of their second half, and the last that is left of their first.

What lies where is printed, in lines that a shell reads: for `tables` the first root, and the leaf and cell of the last row; for `long` the
pages of the table, and of the last trunk its page, how many leaves it has, and the last of them; for `mapped` the first leaves, the overflow
pages, the last map, the first trunk, and where these leaves have the root page and the length of the row.
"""

import os
import sys
from array import array

sys.path.insert(0, os.path.join(os.path.dirname(os.path.abspath(__file__)), "..", "small"))

from make import INTERIOR_TABLE, LEAF_TABLE, Database, be, record, text, varint  # noqa: E402

# The children of an interior page of 512 bytes, with numbers and keys as long as they are here.
CHILDREN = 40


class Sparse(Database):
    """A database in a file, with holes for the pages that are not written."""

    def __init__(self, path, pages, size):
        self.size = size
        self.file = open(path, "wb")
        self.file.truncate(size * pages)
        self.put(1, 0, b"SQLite format 3\0" + be(size % 65535, 2) + bytes([1, 1, 0, 64, 32, 32]))
        self.set_format(1)

    def put(self, page, at, piece):
        self.file.seek(self.size * (page - 1) + at)
        self.file.write(piece)


def tell(**numbers):
    for name, number in numbers.items():
        print(f"{name}={number}")


def row(number, name, root):
    """A row of the schema. Its root is always of four bytes, so its length is known before the root is."""
    name = name.encode()
    payload = record(text(b"table"), text(name), text(name), (4, be(root)), text(b"CREATE TABLE " + name + b"(a)"))
    return varint(len(payload)) + varint(number) + payload


def groups(items, most):
    return [items[k:k + most] for k in range(0, len(items), most)]


def tables(count, length, path):
    def cell(number, root=0):
        return row(number, f"t{number:0{length - 1}}", root)

    leaves = groups(range(1, count + 1), (512 - 8) // (len(cell(count)) + 2))
    # The levels of the schema from its root on: of each page the numbers of its children on the next level.
    levels = [groups(range(len(leaves)), CHILDREN)]
    while len(levels[0]) > 1:
        levels.insert(0, groups(range(len(levels[0])), CHILDREN))
    starts = [1]
    for level in [*levels, leaves]:
        starts.append(starts[-1] + len(level))
    roots = starts.pop()
    db = Sparse(path, roots - 1 + count, 512)
    for number, leaf in enumerate(leaves):
        db.tree_page(starts[-1] + number, LEAF_TABLE, [cell(k, roots + k - 1) for k in leaf])
    keys = [leaf[-1] for leaf in leaves]
    for level, start, below in reversed([*zip(levels, starts, starts[1:])]):
        for number, children in enumerate(level):
            cells = [be(below + child) + varint(keys[child]) for child in children[:-1]]
            db.tree_page(start + number, INTERIOR_TABLE, cells, below + children[-1])
        keys = [keys[children[-1]] for children in level]
    db.put(roots, 0, (bytes([LEAF_TABLE, 0, 0, 0, 0]) + be(512, 2) + bytes(505)) * count)
    db.file.close()
    tell(roots=roots, leaf=roots - 1, item=len(leaves[-1]) - 1)


def big_endian(numbers):
    words = array("I", numbers)
    if sys.byteorder == "little":
        words.byteswap()
    return words.tobytes()


def fill_freelist(db, pages, used, trunks):
    """All pages that are not used go into the freelist. Answers how many leaves its last trunk has, and the last of them."""
    room = db.size // 4 - 2
    ends = sorted({*used, *trunks})
    leaves = big_endian(n for low, high in zip(ends, [*ends[1:], pages + 1]) for n in range(low + 1, high))
    for k, trunk in enumerate(trunks):
        piece = leaves[4 * room * k:4 * room * (k + 1)]
        db.put(trunk, 0, be(trunks[k + 1] if k + 1 < len(trunks) else 0) + be(len(piece) // 4) + piece)
    db.put(1, 32, be(trunks[0]) + be(len(trunks) + len(leaves) // 4))
    return len(piece) // 4, int.from_bytes(piece[-4:], "big")


def long(gib, path):
    size, local = 65536, 8199
    pages = (gib << 30) // size
    root, left, right, first, last = pages // 8 * 7 + 1, pages - 1, pages // 16 * 15 + 1, pages, pages // 2 + 3
    db = Sparse(path, pages, size)
    db.tree_page(1, LEAF_TABLE, [row(1, "t", root)])
    db.interior(root, right, (left, 5))
    db.long_rows(left, (local + 2 * (size - 4), local, first))
    db.put(first, 0, be(last))
    db.leaf(right, 9)
    # Page 16385 is the lock-byte page. Trunks lie behind each power of two, and everywhere between.
    used = {1, 16385, root, left, right, first, last}
    count = -(-(pages - len(used)) // (size // 4 - 1))
    powers = [(1 << k) + 1 for k in range(15, 26) if 1 << k < pages]
    places = [2 + k * (pages // count) for k in range(count)]
    trunks = sorted([place for place in {*powers, *places} - used][:count])
    leaves, end = fill_freelist(db, pages, used, trunks)
    db.file.close()
    tell(pages=pages, root=root, left=left, right=right, first=first, last=last, trunk=trunks[-1], leaves=leaves, lost=end)


def mapped(size, pages, path):
    root, other = 3, 4
    # A row of two overflow pages has as little of it on its own page as may be.
    local = (size - 12) * 32 // 255 - 23
    lock = (1 << 30) // size + 1
    schema, after, leaf, right, first, last, *trunks = range(pages - 11, pages + 1)
    reach = size // 5 + 1
    maps = range(2, pages + 1, reach)
    db = Sparse(path, pages, size)
    db.put(1, 28, be(pages))
    db.put(1, 52, be(other))
    db.interior(1, after, (schema, 1))
    cell = row(1, "t", root)
    db.tree_page(schema, LEAF_TABLE, [cell])
    db.tree_page(after, LEAF_TABLE, [row(2, "u", other)])
    db.interior(root, right, (leaf, 1))
    # A record of one blob: four bytes, and its own.
    length = local + 2 * (size - 4)
    begin = bytes([4]) + varint(2 * (length - 4) + 12)
    db.tree_page(leaf, LEAF_TABLE, [varint(length) + varint(1) + begin + bytes(local - len(begin)) + be(first)])
    db.leaf(right, 9)
    db.leaf(other, 9)
    db.put(first, 0, be(last))
    entries = {root: (1, 0), other: (1, 0), schema: (5, 1), after: (5, 1), leaf: (5, root), right: (5, root),
               first: (3, leaf), last: (4, first)}
    if lock <= pages:
        entries[lock] = (0, 0)
    fill_freelist(db, pages, {1, *maps, *entries}, trunks)
    for page in maps:
        db.put(page, 0, (b"\2" + be(0)) * min(reach - 1, pages - page))
    for page, (kind, parent) in entries.items():
        before = max(number for number in maps if number < page)
        db.put(before, 5 * (page - before - 1), bytes([kind]) + be(parent))
    db.file.close()
    tell(schema=schema, leaf=leaf, first=first, last=last, map=maps[-1], trunk=trunks[0], root_at=size - len(cell) + cell.rindex(be(root)),
         length_at=size - 8 - local)


def chained(path, size, local, pages, chain):
    db = Sparse(path, pages, size)
    db.tree_page(1, LEAF_TABLE, [row(1, "t", 2)])
    db.long_rows(2, (local + (size - 4) * len(chain), local, chain[0]))
    for page, after in zip(chain, [*chain[1:], 0]):
        db.put(page, 0, be(after))
    db.file.close()


def far(path):
    beyond = (1 << 32) // 4096
    chained(path, 4096, 489, beyond + 64, [*range(3, 41), *range(beyond + 36, beyond + 65)])


def high(size, bits, path):
    below, count = (1 << bits) // size, min(400, size // 10)
    db = Sparse(path, below + count, size)
    db.tree_page(1, LEAF_TABLE, [row(1, "t", 2)])
    db.interior(2, below + count, *((below + k, k) for k in range(1, count)))
    for k in range(1, count + 1):
        db.leaf(below + k, k)
    db.file.close()


def beyond(path):
    first = 1200001
    chained(path, 65536, 8199, first + 299, range(first, first + 300))


def apart(path, places):
    pages = (1 << 29) // 16384
    chained(path, 16384, 2031, pages * (len(places) + 1), [3 + pages * k for k in places])


def back(count, path):
    apart(path, range(count, 0, -1))


def halves(count, path):
    apart(path, [k for low in range(count // 2, 0, -1) for k in (low + count // 2, low)])


if __name__ == "__main__":
    if sys.argv[1] == "tables":
        tables(int(sys.argv[2]), int(sys.argv[3]), sys.argv[4])
    elif sys.argv[1] == "mapped":
        mapped(int(sys.argv[2]), int(sys.argv[3]), sys.argv[4])
    elif sys.argv[1] == "far":
        far(sys.argv[2])
    elif sys.argv[1] == "high":
        high(int(sys.argv[2]), int(sys.argv[3]), sys.argv[4])
    elif sys.argv[1] == "beyond":
        beyond(sys.argv[2])
    elif sys.argv[1] == "back":
        back(int(sys.argv[2]), sys.argv[3])
    elif sys.argv[1] == "halves":
        halves(int(sys.argv[2]), sys.argv[3])
    else:
        long(int(sys.argv[2]), sys.argv[3])
