#!/usr/bin/env python3
"""Makes small databases, most with one damage each: make.py TEXT FOLDER.

TEXT is explain.txt, map.txt, mend.txt or stat.txt beside this file, which has a block for each: a line `== NAME PAGES: CHANGES`, what is known
of it in lines that begin with `#`, perhaps a line `--limit N`, and then what `explain` or `mend` is to write; or the lines that its picture is
to have, in their order; or what `check` is to write, and perhaps the rows of `stat`: after `-- pages` those of all pages, and after `-- trees`
those of trees, with each tab written `|`. NAME is a function below. PAGES, which may be left out, is how many pages it has, or is cut or filled to
with zeros. CHANGES are bytes that are written over it: `2 508 0000ffff` on page 2 from byte 508 on. Each database is FOLDER/K.db and its
text FOLDER/K.text; of each a line `K|limit|NAME PAGES: CHANGES` is printed.
"""

import os
import re
import sys

LEAF_TABLE, LEAF_INDEX, INTERIOR_TABLE, INTERIOR_INDEX = 13, 10, 5, 2


def be(number, size=4):
    return number.to_bytes(size, "big")


def varint(value):
    if value >= 1 << 56:
        high, last = value >> 8, [value % 256]
    else:
        high, last = value >> 7, [value % 128]
    groups = []
    while high:
        groups.insert(0, high % 128 | 128)
        high >>= 7
    return bytes(groups + last)


NULL = 0, b""


def text(stored):
    """A column with a text of these bytes."""
    return 2 * len(stored) + 13, stored


def byte(number):
    """A column with an integer of one byte."""
    return 1, bytes([number])


def record(*columns):
    """A record of columns, each a serial type and a body. Its header has less than 128 bytes."""
    serials = b"".join(varint(serial) for serial, _ in columns)
    return bytes([len(serials) + 1]) + serials + b"".join(body for _, body in columns)


def schema_row(kind, name, root):
    """A row of the schema: texts of type, name and table, the root page, and NULL for the SQL."""
    return record(text(kind.encode()), text(name.encode()), text(b"t"), byte(root), NULL)


class Database:
    """Pages of one size: an empty schema, and zeros. The header has 1 for a size of 65536 bytes."""

    def __init__(self, pages, size=512):
        self.size = size
        self.bytes = bytearray(size * pages)
        self.put(1, 0, b"SQLite format 3\0" + be(size % 65535, 2) + bytes([1, 1, 0, 64, 32, 32]))
        self.put(1, 100, bytes([LEAF_TABLE, 0, 0, 0, 0]) + be(size % 65536, 2))

    def put(self, page, at, piece):
        start = self.size * (page - 1) + at
        self.bytes[start:start + len(piece)] = piece

    def tree_page(self, page, kind, cells, right=None):
        """A page of these cells, which lie from the end of the page on, four bytes long at least."""
        head = 100 if page == 1 else 0
        pointers, end = b"", self.size
        for cell in cells:
            end -= max(4, len(cell))
            self.put(page, end, cell)
            pointers += be(end, 2)
        last = b"" if right is None else be(right)
        self.put(page, head, bytes([kind, 0, 0]) + be(len(cells), 2) + be(end, 2) + b"\0" + last + pointers)

    def leaf(self, page, *rowids):
        self.tree_page(page, LEAF_TABLE, [b"\0" + varint(rowid) for rowid in rowids])

    def rows(self, page, *payloads):
        self.tree_page(page, LEAF_TABLE, [varint(len(row)) + varint(n) + row for n, row in enumerate(payloads, 1)])

    def interior(self, page, right, *children):
        """Children with their keys, and the right child."""
        self.tree_page(page, INTERIOR_TABLE, [be(child) + varint(key) for child, key in children], right)

    def leaf_index(self, page, *payloads):
        self.tree_page(page, LEAF_INDEX, [varint(len(key)) + key for key in payloads])

    def interior_index(self, page, right):
        self.tree_page(page, INTERIOR_INDEX, [], right)

    def set_format(self, encoding):
        """Schema format 4, and texts in the encoding of this number."""
        self.put(1, 44, be(4))
        self.put(1, 56, be(encoding))

    def schema(self, *rows):
        """Rows of the schema (type, name, root page), in UTF-8."""
        self.set_format(1)
        self.rows(1, *(schema_row(*row) for row in rows))

    def long_rows(self, page, *rows):
        """Rows of zeros: their length, how many bytes are on the page, and the first overflow page."""
        cells = [varint(size) + varint(n) + bytes(local) + be(first) for n, (size, local, first) in enumerate(rows, 1)]
        self.tree_page(page, LEAF_TABLE, cells)

    def map(self, greatest_root, *entries):
        """Page 2 is a pointer map with the entries of the pages from 3 on."""
        self.put(1, 52, be(greatest_root))
        self.put(2, 0, b"".join(bytes([kind]) + be(number) for kind, number in entries))

    def freelist(self, first, count, *leaves):
        """A trunk, and how many pages of the freelist the header states."""
        self.put(1, 32, be(first) + be(count))
        self.put(first, 4, be(len(leaves)) + b"".join(be(leaf) for leaf in leaves))


def table(pages, *more):
    """A table t, whose root is page 2, and perhaps others."""
    db = Database(pages)
    db.schema(("table", "t", 2), *more)
    return db


def smallest(pages):
    return Database(pages)


def largest(_):
    return Database(1, 65536)


def one_table(_):
    """A row of the schema, and zeros for its root."""
    return table(2)


def two_leaves(_):
    db = table(4)
    db.interior(2, 4, (3, 5))
    db.leaf(3, 5)
    db.leaf(4, 6)
    return db


def shared_root(_):
    db = table(2, ("table", "t", 2))
    db.leaf(2)
    return db


def shared_bytes(_):
    """Two cells share three bytes, beside three that no cell holds."""
    db = table(2)
    db.put(2, 0, bytes.fromhex("0d 0000 0002 01e8 00 01eb 01f4"))
    db.put(2, 491, b"\x0a\1")
    db.put(2, 500, b"\x0a\2")
    return db


def full_page(_):
    """A leaf of 84 cells, each of two bytes of the pointers and four of the content."""
    db = table(2)
    db.leaf(2, *range(84))
    return db


def utf_16(_):
    """A row of the schema in UTF-16, big end first, whose name has a tab."""
    db = Database(2)
    db.set_format(3)
    db.rows(1, record(*(text(word.encode("utf-16-be")) for word in ("table", "a\tb", "t")), byte(2), NULL))
    db.leaf(2)
    return db


def index(_):
    """An index of two leaves; the key between them is of 600 bytes, of which 508 are on page 5."""
    db = Database(5)
    db.schema(("index", "t", 2))
    db.tree_page(2, INTERIOR_INDEX, [be(3) + varint(600) + bytes(92) + be(5)], 4)
    db.leaf_index(3, bytes(7))
    db.leaf_index(4, bytes(7))
    return db


def own_child(_):
    """A page that is its own child twice."""
    db = Database(1)
    db.interior(1, 1, (1, 5))
    return db


def parent_as_child(_):
    db = Database(2)
    db.interior(1, 2)
    db.interior(2, 1)
    return db


def freelist(_):
    db = Database(3)
    db.freelist(2, 2, 3)
    return db


def full_trunk(_):
    """A trunk, page 2, that is full: its leaves are the 126 pages after it."""
    db = Database(128)
    db.freelist(2, 127, *range(3, 129))
    return db


def own_trunk(_):
    """A trunk that names itself as the next."""
    db = Database(2)
    db.freelist(2, 1)
    db.put(2, 0, be(2))
    return db


def two_trunks(_):
    """Two trunks without leaves."""
    db = Database(3)
    db.freelist(2, 2)
    db.put(2, 0, be(3))
    return db


def mapped_freelist(_):
    """A trunk and its leaf after a pointer map."""
    db = Database(4)
    db.freelist(3, 2, 4)
    db.map(1, (2, 0), (2, 0))
    return db


def long_row(pages):
    """A row of 600 bytes whose overflow page is page 3."""
    db = Database(pages)
    db.schema(("table", "t", 2))
    db.long_rows(2, (600, 92, 3))
    return db


def long_chain(_):
    """A row of 9236 bytes whose overflow pages are the 18 after its page."""
    db = table(20)
    db.long_rows(2, (9236, 92, 3))
    for page in range(3, 20):
        db.put(page, 0, be(page + 1))
    return db


def chain_beside_freelist(_):
    """A row of 1108 bytes that goes on on pages 3 and 4; a trunk, page 5, and its leaves, pages 6, 7 and 8."""
    db = table(8)
    db.long_rows(2, (1108, 92, 3))
    db.put(3, 0, be(4))
    db.freelist(5, 4, 6, 7, 8)
    return db


def mapped(pages):
    """After a pointer map, a row of 600 bytes whose overflow page is page 4."""
    db = Database(pages)
    db.schema(("table", "t", 3))
    db.long_rows(3, (600, 92, 4))
    db.map(3, (1, 0), (3, 3))
    return db


def root_beside_trunk(_, root=3, trunk=4):
    """After a pointer map the empty root of a table and the only trunk, without leaves."""
    db = Database(4)
    db.schema(("table", "t", root))
    db.freelist(trunk, 1)
    db.map(root, *sorted([(1, 0), (2, 0)], reverse=trunk < root))
    db.leaf(root)
    return db


def trunk_beside_root(_):
    return root_beside_trunk(_, 4, 3)


def ladder(pages):
    """A schema of a level a page: interior pages without cells, each with the next as its right child, and an empty leaf."""
    db = Database(pages)
    for page in range(1, pages):
        db.interior(page, page + 1)
    db.leaf(pages)
    return db


def two_tables(first, last, last_child):
    """Leaves of `customer` with the rowids 4 and 5, and 6 and 7; leaves of `order` with 100 and 200, and 201."""
    db = Database(7)
    db.schema(("table", "customer", 2), ("table", "order", 5))
    db.interior(2, 4, (3, 5))
    db.leaf(first, 4, 5)
    db.leaf(4, 6, 7)
    db.interior(5, last_child, (6, 200))
    db.leaf(6, 100, 200)
    db.leaf(last, 201)
    return db


def leaves_exchanged(_):
    return two_tables(7, 3, 7)


def leaf_shared(_):
    """The last child of `order` is the last one of `customer`, so that its own is lost."""
    return two_tables(3, 7, 4)


def whole(_):
    return two_tables(3, 7, 7)


def two_indexes(_):
    """Of numbers on the pages 6 and 5, and of texts on the pages 4 and 7, each with a key between them."""
    db = Database(7)
    db.schema(("index", "t", 2), ("index", "u", 3))
    for root, left, right, keys in (2, 6, 5, [byte(1), byte(2), byte(10), byte(20)]), (3, 4, 7, [text(b"a"), text(b"b"), text(b"m"), text(b"z")]):
        payloads = [record(key, byte(n)) for n, key in enumerate(keys, 1)]
        db.leaf_index(left, *payloads[:2])
        db.tree_page(root, INTERIOR_INDEX, [be(left) + varint(len(payloads[2])) + payloads[2]], right)
        db.leaf_index(right, payloads[3])
    return db


def root_cut_off(_):
    db = Database(3)
    db.schema(("table", "early_a", 2), ("table", "early_b", 3), ("index", "late_a", 39))
    db.leaf(2)
    db.leaf(3)
    return db


def wrong_entry(_):
    """The last child is of page 3 and not, as its entry says, of page 4."""
    db = Database(5)
    db.schema(("table", "t", 3))
    db.interior(3, 5, (4, 10))
    db.leaf(4, 10)
    db.leaf(5, 11)
    db.map(3, (1, 0), (5, 3), (5, 4))
    return db


def far_children(_):
    """Of the children of `t`, pages 90 to 92 and 0 are no pages of the file; nor is page 80, a child of `u`."""
    db = table(5, ("table", "u", 4))
    db.interior(2, 3, (90, 1), (91, 2), (92, 3), (0, 4))
    db.leaf(3, 5)
    db.interior(4, 5, (80, 1))
    db.leaf(5, 2)
    return db


def four_keys(_):
    """Four keys in turn are the greatest while rows come that are not above them."""
    db = table(7)
    db.interior(2, 7, (3, 50), (4, 60), (5, 70), (6, 80))
    db.leaf(3, 10, 50)
    db.leaf(4, 20, 60)
    db.leaf(5, 30, 40, 70)
    db.leaf(6, 70, 80)
    db.leaf(7, 75, 90)
    return db


def ten_rows(_):
    """After the row 50 come the rows 1 to 10. Page 5 is in no use."""
    db = table(5)
    db.interior(2, 4, (3, 50))
    db.leaf(3, 50)
    db.leaf(4, *range(1, 11))
    return db


def extreme_rows(_):
    """A root that is a leaf, with the greatest rowid, the least, and -1."""
    db = table(2)
    db.leaf(2, (1 << 63) - 1, 1 << 63, (1 << 64) - 1)
    return db


def two_looks(_):
    """Of the children, pages 3 and 5 are zeros, and pages 4 and 6 have no type."""
    db = table(7)
    db.interior(2, 7, (3, 1), (4, 2), (5, 3), (6, 4))
    db.put(4, 0, bytes.fromhex("48 69 21 20 7e 7f 1f"))
    db.put(6, 0, b"\x80")
    db.leaf(7, 5)
    return db


def zero_row(_):
    """A row whose rowid and payload are 0: its cell is zeros, and so is all between it and the head of its page."""
    db = table(2)
    db.leaf(2, 0)
    return db


def one_row(_):
    """A row of one byte, whose cell is 01 01 00 00: what is between it and the head of its page is zeros."""
    db = table(2)
    db.rows(2, b"\0")
    return db


def ff_cells(_):
    """A page of 65536 bytes: 10000 cells, which begin one after the other in the run of ff that fills the page after their pointers."""
    db = Database(2, 65536)
    db.schema(("table", "t", 2))
    pointers = b"".join(be(20008 + cell, 2) for cell in range(10000))
    db.put(2, 0, bytes([LEAF_TABLE, 0, 0]) + be(10000, 2) + be(20008, 2) + b"\0" + pointers + b"\xff" * 45528)
    return db


def all_ff(_):
    """A child whose bytes are all ff; and of two pages that nothing refers to one is all ff, and one but for its last byte."""
    db = table(6)
    db.interior(2, 4, (3, 5))
    db.leaf(4, 6)
    for page in (3, 5, 6):
        db.put(page, 0, b"\xff" * 512)
    db.put(6, 511, b"\xfe")
    return db


def two_depths(_):
    """A leaf whose depth is 2 after leaves whose depth is 3."""
    db = table(6)
    db.interior(2, 6, (3, 10))
    db.interior(3, 5, (4, 5))
    db.leaf(4, 5)
    db.leaf(5, 10)
    db.leaf(6, 11)
    return db


def three_levels(_):
    """A leaf for each of the rowids 10, 20, 30 and 40, and above them two interior pages and the root."""
    db = table(8)
    db.interior(2, 4, (3, 20))
    db.interior(3, 6, (5, 10))
    db.interior(4, 8, (7, 30))
    for page, rowid in (5, 10), (6, 20), (7, 30), (8, 40):
        db.leaf(page, rowid)
    return db


def two_chains(_):
    """A row that goes on on page 5, and one that goes on on pages 3 and 4."""
    db = table(5)
    db.long_rows(2, (600, 92, 5), (1108, 92, 3))
    db.put(3, 0, be(4))
    return db


def long_schema(_):
    """A row of the schema, of 600 bytes, that goes on on page 3: its text of SQL is 585 spaces."""
    db = table(3)
    row = record(text(b"table"), text(b"t"), text(b"t"), byte(2), text(b" " * 585))
    db.tree_page(1, LEAF_TABLE, [varint(600) + b"\1" + row[:92] + be(3)])
    db.leaf(2)
    db.put(3, 4, row[92:])
    return db


def stripes(pages):
    """Pages that nothing refers to: those of even numbers are zeros, and the others leaves of an index with a cell."""
    db = Database(pages)
    for page in range(3, pages + 1, 2):
        db.leaf_index(page, bytes(7))
    return db


def lost_between(_):
    """The map's entries of pages 4 and 8 are wrong, and pages 5 to 7 in no use: two of zeros, and a leaf between."""
    db = Database(8)
    db.schema(("table", "t", 3))
    db.interior(3, 8, (4, 10))
    db.leaf(4, 10)
    db.leaf_index(6)
    db.leaf(8, 11)
    db.map(3, (1, 0), (5, 9), (0, 0), (0, 0), (0, 0), (5, 9))
    return db


def looks(_):
    """A page of each kind that nothing refers to, but a leaf of a table; page 5 is zeros, and the content area of page 6 out of bounds."""
    db = Database(6)
    db.interior(2, 9, (8, 3))
    db.leaf_index(3, bytes(7), bytes(7))
    db.interior_index(4, 9)
    db.leaf(6)
    db.put(6, 5, b"\0\0")
    return db


def lost_rows(_):
    """Two leaves that nothing refers to: one with the least rowid, 0 and the greatest, and one with a row."""
    db = Database(3)
    db.leaf(2, 1 << 63, 0, (1 << 63) - 1)
    db.leaf(3, 7)
    return db


def all_looks(_):
    """A page of each of the six looks that nothing refers to, twice."""
    db = Database(13)
    for page in (2, 8):
        db.interior_index(page, 9)
        db.put(page + 1, 0, b"\xff")
        db.leaf(page + 2, 5)
        db.interior(page + 4, 9, (8, 3))
        db.leaf_index(page + 5, bytes(7))
    return db


def one_byte(_):
    """Of three leaves of a table `a` page 3 is all 61, and page 8 all 0d; the row of page 4 goes on on page 5, which is all ff. Page 6, all 61, and
    page 7, all zeros, are in no use."""
    db = Database(8)
    db.schema(("table", "a", 2))
    db.interior(2, 4, (3, 1), (8, 2))
    db.tree_page(4, LEAF_TABLE, [varint(600) + varint(5) + bytes(92) + be(5)])
    for page, only in (3, 0x61), (5, 0xff), (6, 0x61), (8, LEAF_TABLE):
        db.put(page, 0, bytes([only]) * 512)
    return db


def lost_names(_):
    """A lost interior page names itself, 0, a page past the end, page 3 twice, and page 1; the pointer of its last cell is out of bounds."""
    db = Database(3)
    db.interior(2, 1, (2, 1), (0, 2), (99, 3), (3, 4), (3, 5), (3, 6))
    db.put(2, 22, b"\1\xfd")
    db.leaf(3, 7)
    return db


def kinds(_):
    """A table `a` with a payload that goes on on page 3; an index whose name would be markup, on page 4; page 5 is a trunk and 6 its leaf;
    page 7 is in no use."""
    db = Database(7)
    db.schema(("table", "a", 2), ("index", "<&\"\n'>", 4))
    db.tree_page(2, LEAF_TABLE, [varint(600) + varint(5) + bytes(92) + be(3)])
    db.leaf_index(4)
    db.freelist(5, 2, 6)
    return db


def eight_trees(_):
    db = Database(8)
    db.schema(*(("table", name, root) for root, name in enumerate("abcdefg", 2)))
    for page in range(2, 9):
        db.leaf(page)
    return db


def strange_names(_):
    """Two trees of one name, and a name that turns text around."""
    db = Database(4)
    db.schema(("table", "t", 2), ("table", "t", 3), ("table", "\u202eb\u2066\uffff\u202f", 4))
    for page in (2, 3, 4):
        db.leaf(page)
    return db


def named(encoding, *names):
    """Tables with an empty page each, and these columns for names. Texts are in the encoding of this number."""
    kind = text("table".encode(("utf-8", "utf-16-le", "utf-16-be")[encoding - 1]))
    db = Database(len(names) + 1, 4096)
    db.set_format(encoding)
    db.rows(1, *(record(kind, name, NULL, byte(root), NULL) for root, name in enumerate(names, 2)))
    for page in range(2, len(names) + 2):
        db.leaf(page)
    return db


def names_utf_8(_):
    """Among them U+00E9 with U+0080, and U+20AC with U+1F600, in two, three and four bytes."""
    return named(1, *map(text, [b"t", b"", b"?", b"a\tb", b"a\\b\n", b"\x00\x1f \x7e\x7f", b"\xc3\xa9\xc2\x80", b"\xe2\x82\xac\xf0\x9f\x98\x80"]))


def names_utf_16le(_):
    """Among them U+5C00, whose high byte is that of a backslash, with U+0100, whose low byte is 0; U+20AC; U+1F600; and U+FEFF."""
    return named(2, *map(text, [b"", b"a\0\t\0b\0", b"\\\0\x7f\0\x1f\0", b"\0\x5c\0\x01", b"\xac\x20", b"\x3d\xd8\x00\xde", b"\xff\xfet\0"]))


def names_utf_16be(_):
    """The same, and U+FFFE."""
    return named(3, *map(text, [b"", b"\0a\0\t\0b", b"\0\\\0\x7f\0\x1f", b"\x5c\0\x01\0", b"\x20\xac", b"\xd8\x3d\xde\x00", b"\xfe\xff\0t", b"\xff\xfe"]))


def no_names_utf_8(_):
    """Names that are not well-formed, and an SQL NULL, an integer and a blob."""
    malformed = [b"\xff", b"t\x80", b"\x00\x1f \x7e\x7f\x80", b"\xc0\x80", b"\xe2\x82", b"\xed\xa0\x80", b"\xf4\x90\x80\x80", b"\xd8\x00\0a\0b"]
    return named(1, *map(text, malformed), NULL, (1, b"t"), (14, b"t"))


def no_names_utf_16le(_):
    """Two odd lengths, a high surrogate at the end and before no low one, and a low one that is first."""
    return named(2, *map(text, [b"t", b"t\0\t", b"\x3d\xd8", b"\x3d\xd8t\0", b"\x00\xde\x3d\xd8"]))


def no_names_utf_16be(_):
    """An odd length, a high surrogate at the end, before no low one and before another, and a low one that is first."""
    return named(3, *map(text, [b"\0t\t", b"\xd8\x3d", b"\xd8\x3d\0t", b"\xde\x00\xd8\x3d", b"\xd8\x3d\xd8\x3d\xde\x00"]))


def long_names_utf_8(_):
    """A name of 1000 bytes, which is shown, and one of 1001."""
    return named(1, *map(text, [b"\1" * 1000, b"\1" * 1001]))


def long_names_utf_16le(_):
    """U+0101 500 times, which is of 1000 bytes in UTF-8 too, and 501 times."""
    return named(2, *map(text, [b"\1" * 1000, b"\1" * 1002]))


def long_names_utf_16be(_):
    return named(3, *map(text, [b"\1" * 1000, b"\1" * 1002]))


def many_roots(_):
    """65537 rows of the schema, each of a table whose root is page 65537, which is not there. Pages are of 65536 bytes."""
    row, rows, on_leaf = record(text(b"table"), text(b"t"), text(b"t"), (4, be(65537)), NULL), 65537, 2848
    firsts = range(1, rows + 1, on_leaf)
    db = Database(len(firsts) + 1, 65536)
    db.set_format(1)
    db.interior(1, len(firsts) + 1, *((page, page * on_leaf - on_leaf) for page in range(2, len(firsts) + 1)))
    for page, first in enumerate(firsts, 2):
        rowids = range(first, min(first + on_leaf, rows + 1))
        db.tree_page(page, LEAF_TABLE, [varint(len(row)) + varint(rowid) + row for rowid in rowids])
    return db


def four_tables(_):
    """After a pointer map, four tables of a page each."""
    db = Database(6)
    db.schema(*(("table", name, root) for root, name in enumerate("abcd", 3)))
    db.map(6, (1, 0), (1, 0), (1, 0), (1, 0))
    for page in range(3, 7):
        db.leaf(page)
    return db


def led(_):
    """Table `a` has rows on the pages 3 and 4, where rowid 5 comes after key 10 of page 2: T06. The trunk on page 5 names page 3: R03. Table
    `b` has an empty leaf on each of the pages 7 to 10: P10, of which three lead. Page 11 is in no use: N01."""
    db = Database(11)
    db.schema(("table", "a", 2), ("table", "b", 6))
    db.interior(2, 4, (3, 10))
    db.tree_page(3, LEAF_TABLE, [b"\1\1x", b"\1\x09x"])
    db.tree_page(4, LEAF_TABLE, [b"\1\5x"])
    db.freelist(5, 1, 3)
    db.interior(6, 10, (7, 1), (8, 2), (9, 3))
    for page in range(7, 11):
        db.leaf(page)
    return db


def many_entries(_):
    """33 tables have three empty leaves each: 99 entries of P10. Nothing refers to page 134, of zeros, nor to page 135, a leaf of an index."""
    db = Database(135, 4096)
    for tree in range(33):
        leaf = 35 + 3 * tree
        db.interior(2 + tree, leaf + 2, (leaf, 1), (leaf + 1, 2))
        for page in range(leaf, leaf + 3):
            db.leaf(page)
    db.schema(*(("table", "t", root) for root in range(2, 35)))
    db.leaf_index(135, bytes(7))
    return db


def ordered_leaves(_):
    """An index of words on three leaves, of which the first is page 4, and the second page 3."""
    return three_leaves(text(word.encode()) for word in "abmnprxz")


def falling_leaves(_):
    """As `ordered_leaves`, with words that fall."""
    return three_leaves(text(word.encode()) for word in "zxrpnmba")


def negative_leaves(_):
    """As `ordered_leaves`, of numbers."""
    return three_leaves(byte(number % 256) for number in (-9, -8, -3, -2, 4, 5, 6, 7))


def three_leaves(values):
    keys = [record(value, byte(n)) for n, value in enumerate(values, 1)]
    db = Database(5)
    db.schema(("index", "t", 2))
    db.tree_page(2, INTERIOR_INDEX, [be(child) + varint(len(key)) + key for child, key in ((4, keys[2]), (3, keys[5]))], 5)
    db.leaf_index(4, *keys[:2])
    db.leaf_index(3, *keys[3:5])
    db.leaf_index(5, *keys[6:])
    return db


def root_beside_leaf(_):
    """Of four tables, `t` has leaves on the pages 3, 7 and 5, and `u` is page 6 alone."""
    db = Database(8)
    db.schema(("table", "a", 2), ("table", "t", 4), ("table", "u", 6), ("table", "v", 8))
    db.leaf(2, 1)
    db.interior(4, 5, (3, 10), (7, 20))
    db.leaf(3, 1, 2)
    db.leaf(7, 15, 16)
    db.leaf(5, 25)
    db.leaf(6, 1, 2, 3)
    db.leaf(8, 1)
    return db


def content(title):
    """The bytes of the database of a name, its pages, and what is written over it."""
    front, _, changes = title.partition(":")
    name, _, pages = front.partition(" ")
    pages = int(pages or 0)
    db = globals()[name.replace("-", "_")](pages)
    length = db.size * pages if pages else len(db.bytes)
    db.bytes = db.bytes[:length].ljust(length, b"\0")
    for change in filter(None, changes.split(",")):
        page, at, digits = change.split(maxsplit=2)
        db.put(int(page), int(at), bytes.fromhex(digits))
    return bytes(db.bytes)


def main():
    if len(sys.argv) != 3:
        sys.exit(__doc__)
    folder = sys.argv[2]
    os.makedirs(folder, exist_ok=True)
    with open(sys.argv[1], encoding="utf-8") as it:
        blocks = re.split("^== ", it.read(), flags=re.M)[1:]
    for number, block in enumerate(blocks):
        title, *lines = block.splitlines(keepends=True)
        lines = [line for line in lines if not line.startswith("#")]
        limit = lines.pop(0).split()[1] if lines[0].startswith("--limit") else "100"
        with open(os.path.join(folder, f"{number}.db"), "wb") as it:
            it.write(content(title.strip()))
        with open(os.path.join(folder, f"{number}.text"), "w", encoding="utf-8") as it:
            it.write("".join(lines))
        print(f"{number}|{limit}|{title.strip()}")


if __name__ == "__main__":
    main()
