#!/usr/bin/env python3
"""A slow checker beside the program: slow.py DBCK FOLDER FILE..

Whether a database is sound is asked of the program and of `is_sound` below, which is written from what a sound file is and shares nothing
with the program. It is asked of each FILE and of databases of small/make.py: whole ones, some with a byte that is 0 or 255 and was not, and
some cut at a length, each written to FOLDER. All are shorter than the lock-byte page is far. A line is printed for each on which the two do
not agree, and for each page of which no byte changes the answer, or each does. The exit status is 1 then.
"""

import itertools
import os
import subprocess
import sys

sys.path.insert(0, os.path.join(os.path.dirname(os.path.abspath(__file__)), "small"))
import make  # noqa: E402


def number(piece, at, size=4):
    """The number of some bytes at a place. After the end of the bytes there are zeros."""
    return int.from_bytes(piece[at:at + size].ljust(size, b"\0"), "big")


def varint(piece, at):
    """The varint at a place, and the place after it, which is after the end of the bytes where they end first."""
    value = 0
    for i in range(8):
        byte = number(piece, at + i, 1)
        value = value * 128 + byte % 128
        if byte < 128:
            return value, at + i + 1
    return value * 256 + number(piece, at + 8, 1), at + 9


class File:
    """A file, its header and its pages."""

    def __init__(self, content):
        self.content = content
        stored = number(content, 16, 2)
        self.page_size = 65536 if stored == 1 else stored
        self.usable = self.page_size - number(content, 20, 1)
        self.whole = len(content) // max(self.page_size, 1)
        is_stated = number(content, 28) != 0 and number(content, 24) == number(content, 92)
        self.pages = number(content, 28) if is_stated else self.whole

    def number(self, at):
        return number(self.content, at)

    def is_headed(self):
        """Whether the header has no fault."""
        content = self.content
        return (
            len(content) >= 100
            and content[:16] == b"SQLite format 3\0"
            and self.page_size in (512, 1024, 2048, 4096, 8192, 16384, 32768, 65536)
            and self.usable >= 480
            and 1 <= self.pages <= min(self.whole, 67108864)
            and content[18] in (1, 2)
            and content[19] in (1, 2)
            and content[21:24] == bytes([64, 32, 32])
            and self.number(44) <= 4
            and self.number(56) <= 3
            and content[72:92] == bytes(20)
            and (self.number(64) == 0 or self.number(52) != 0)
        )

    def page(self, p):
        """The used part of a page, which is empty where there is no such page."""
        if not 1 <= p <= self.pages:
            return b""
        start = (p - 1) * self.page_size
        return self.content[start:start + self.usable]

    def after_map(self, p):
        """How many pages a page is after its map page."""
        return (p - 2) % (self.usable // 5 + 1)

    def is_map(self, p):
        return self.number(52) != 0 and p >= 2 and self.after_map(p) == 0

    def has_entry(self, p, kind, parent):
        """Whether the entry of a page in the pointer map, where it has one, is of this type and number."""
        if self.number(52) == 0 or p <= 2 or self.is_map(p):
            return True
        after = self.after_map(p)
        page, at = self.page(p - after), (after - 1) * 5
        return number(page, at, 1) == kind and number(page, at + 1) == parent


class Cell:
    """A cell, as far as its page has it: where it begins and ends, its left child, its key where it is of a table, the size of its payload,
    of which `local` bytes are on the page from `start` on, and the page that the others begin on."""

    def __init__(self, page, i):
        piece = page.piece
        self.at = number(piece, page.pointers + 2 * i, 2)
        at = self.at + (4 if page.is_interior else 0)
        self.left = number(piece, self.at)
        self.size, self.key = 0, None
        if not (page.is_interior and page.is_table):
            self.size, at = varint(piece, at)
        if page.is_table:
            bits, at = varint(piece, at)
            self.key = bits - (1 << 64) if bits >= 1 << 63 else bits
        self.start = at
        self.local = page.local_size(self.size)
        self.overflow = number(piece, at + self.local)
        self.end = max(at + self.local + (4 if self.local < self.size else 0), self.at + 4)


class TreePage:
    """A page of a tree, of whose bytes each is held by one cell or freeblock at most."""

    def __init__(self, file, p):
        self.piece = file.page(p)
        self.head = 100 if p == 1 else 0
        self.kind = number(self.piece, self.head, 1)
        self.is_interior = self.kind in (2, 5)
        self.is_table = self.kind in (5, 13)
        self.count = number(self.piece, self.head + 3, 2)
        self.start = number(self.piece, self.head + 5, 2) or 65536
        self.fragmented = number(self.piece, self.head + 7, 1)
        self.right = number(self.piece, self.head + 8)
        self.pointers = self.head + (12 if self.is_interior else 8)

    def local_size(self, payload):
        """How many bytes of a payload are on the page."""
        usable = len(self.piece)
        least = (usable - 12) * 32 // 255 - 23
        most = usable - 35 if self.is_table else (usable - 12) * 64 // 255 - 23
        if payload <= most:
            return payload
        some = least + (payload - least) % (usable - 4)
        return some if some <= most else least

    def is_headed(self):
        end = self.pointers + 2 * self.count
        return self.kind in (2, 5, 10, 13) and end <= self.start <= len(self.piece) and self.fragmented <= 60

    def cells(self):
        return [Cell(self, i) for i in range(self.count)]

    def freeblocks(self):
        """The freeblocks, each with its end, or None where one is not within the content after the one before."""
        found, least, at = [], self.start, number(self.piece, self.head + 1, 2)
        while at != 0:
            size = number(self.piece, at + 2, 2)
            if not (least <= at and size >= 4 and at + size <= len(self.piece)):
                return None
            found.append((at, at + size))
            least, at = at + size, number(self.piece, at, 2)
        return found

    def is_sound(self, is_root):
        """Whether there is no fault within the page. Only a root may be empty."""
        if not self.is_headed() or (self.count == 0 and not is_root):
            return False
        cells, blocks = self.cells(), self.freeblocks()
        are_inside = all(cell.size <= 2147483647 and self.start <= cell.at and cell.end <= len(self.piece) for cell in cells)
        if not are_inside or blocks is None:
            return False
        held = [0] * len(self.piece)
        for at, end in [(cell.at, cell.end) for cell in cells] + blocks:
            for place in range(at, end):
                held[place] += 1
        content = held[self.start:]
        return max(content, default=0) <= 1 and content.count(0) == self.fragmented


class SchemaRow:
    """A row of the schema, from the whole of its payload."""

    ENCODINGS = {2: "utf-16-le", 3: "utf-16-be"}

    def __init__(self, payload, encoding):
        self.encoding = self.ENCODINGS.get(encoding, "utf-8")
        header, at = varint(payload, 0)
        self.serials, self.columns, end = [], [], header
        for _ in range(5):
            serial, at = varint(payload, at)
            start, end = end, end + self.size_of(serial)
            self.serials.append(serial)
            self.columns.append(payload[start:end])
        # Header and bodies are all of it.
        self.is_whole = at == header and end == len(payload)

    @staticmethod
    def size_of(serial):
        if serial >= 12:
            return (serial - 12) // 2
        return (0, 1, 2, 3, 4, 6, 8, 8, 0, 0, 0, 0)[serial]

    def root(self):
        """The number of the column of the root, which is an integer, or NULL, which counts as 0; of another type None."""
        serial = self.serials[3]
        if serial in (0, 8):
            return 0
        if serial == 9:
            return 1
        return int.from_bytes(self.columns[3], "big", signed=True) if 1 <= serial <= 6 else None

    def text(self, i):
        """The text of a column, or None where it is none."""
        if self.serials[i] < 13 or self.serials[i] % 2 == 0:
            return None
        try:
            return self.columns[i].decode(self.encoding)
        except UnicodeDecodeError:
            return None

    def is_index(self):
        return self.text(0) == "index"

    def is_sound(self):
        kind, root = self.text(0), self.root()
        if not self.is_whole or 10 in self.serials or 11 in self.serials:
            return False
        if self.text(1) is None or len(self.columns[1]) > 1000 or root is None:
            return False
        is_page = 1 <= root <= 4294967295 and kind in ("table", "index")
        return is_page or (root == 0 and kind in ("table", "view", "trigger"))


class Unsound(Exception):
    """Something is not as it is in a sound file."""


def wants(holds):
    if not holds:
        raise Unsound


class Terms:
    """The pages of the terms of a file: those of each tree level by level, those of a chain and of the freelist one after another. Nothing is
    marked: at the end the list has to be all pages, each once. A use is a page with its entry in a pointer map."""

    def __init__(self, file):
        self.file = file
        self.uses = []

    def add(self, page, kind, parent):
        wants(len(self.uses) < self.file.pages)
        self.uses.append((page, kind, parent))

    def add_chain(self, cell, p):
        """Lists the chain of a cell of page p, and answers the payload that it carries."""
        carried, left, page, entry = b"", cell.size - cell.local, cell.overflow, (3, p)
        while left > 0:
            self.add(page, *entry)
            piece = self.file.page(page)
            carried += piece[4:4 + left]
            left, page, entry = left - (self.file.usable - 4), number(piece, 0), (4, page)
            wants(left > 0 or page == 0)
        return carried

    def add_tree(self, root, is_table):
        """Lists a tree, at most 20 levels high, whose leaves are all on the last one. The payloads of its leaves are answered."""
        payloads, leaf_level = [], None
        level = [(root, 1, 0, None, None)]
        for depth in itertools.count(1):
            below = []
            for p, kind, parent, low, high in level:
                self.add(p, kind, parent)
                page = TreePage(self.file, p)
                if not page.is_interior:
                    leaf_level = leaf_level or depth
                wants(depth <= 20 and page.is_table == is_table and page.is_sound(kind == 1))
                wants(page.is_interior == (leaf_level is None))
                for cell in page.cells():
                    key = cell.key
                    wants(None in (key, high) or key <= high)
                    wants(None in (key, low) or (low <= key if page.is_interior else low < key))
                    if page.is_interior:
                        below.append((cell.left, 5, p, low, key))
                    carried = self.add_chain(cell, p)
                    if not page.is_interior:
                        payloads.append(page.piece[cell.start:cell.start + cell.local] + carried)
                    low = key
                if page.is_interior:
                    below.append((page.right, 5, p, low, high))
            if not below:
                return payloads
            level = below

    def add_freelist(self):
        trunk = self.file.number(32)
        while trunk != 0:
            self.add(trunk, 2, 0)
            piece = self.file.page(trunk)
            leaves = number(piece, 4)
            wants(leaves <= self.file.usable // 4 - 2)
            for i in range(leaves):
                self.add(number(piece, 8 + 4 * i), 2, 0)
            trunk = number(piece, 0)

    def fit(self, rows, roots):
        """That all that is listed fits the header and the pointer map."""
        file, greatest = self.file, self.file.number(52)
        listed = sorted(page for page, _, _ in self.uses)
        wants(listed == [p for p in range(1, file.pages + 1) if not file.is_map(p)])
        wants(file.number(36) == sum(kind == 2 for _, kind, _ in self.uses))
        wants(len(roots) <= 65536 and greatest in (0, max(roots, default=1)))
        wants(rows == 0 or (file.number(44) != 0 and file.number(56) != 0))
        wants(all(file.has_entry(*use) for use in self.uses))
        others = [page for page, kind, _ in self.uses if kind != 1]
        # Each root is before each page that is none.
        wants(greatest == 0 or max(page for page, kind, _ in self.uses if kind == 1) < min(others, default=1 << 32))


def is_sound(content):
    """Whether the file of these bytes is sound."""
    file = File(content)
    if not file.is_headed():
        return False
    terms, roots = Terms(file), []
    try:
        payloads = terms.add_tree(1, True)
        for payload in payloads:
            row = SchemaRow(payload, file.number(56))
            wants(row.is_sound())
            if row.root() != 0:
                roots.append(row.root())
                # A row of a table may be of one without rowid, whose tree is that of an index. One of an index is an index tree.
                terms.add_tree(row.root(), TreePage(file, row.root()).is_table and not row.is_index())
        terms.add_freelist()
        terms.fit(len(payloads), roots)
    except Unsound:
        return False
    return True


# Small databases, and whether they are sound.
FILES = (
    ("smallest 1", True),
    ("long-row 3", True),
    ("mapped 4", True),
    ("two-leaves", True),
    # A rowid again in the next leaf.
    ("two-leaves: 4 508 0005", False),
    ("shared-bytes", False),
    # Two rows of one root.
    ("shared-root", False),
    ("freelist", True),
    ("freelist: 1 36 00000001", False),
    ("root-beside-trunk", True),
    # A root after a trunk.
    ("trunk-beside-root", False),
    # Empty pages below a root.
    ("ladder 3", False),
)

# Databases of which each byte is changed.
CHANGED = ("long-row 3", "mapped 4")


class Beside:
    """The program, and the files on which it does not agree."""

    def __init__(self, dbck, folder):
        os.makedirs(folder, exist_ok=True)
        self.dbck = dbck
        self.path = os.path.join(folder, "slow.db")
        self.complaints = 0

    def complain(self, text):
        self.complaints += 1
        print(text)

    def agree(self, content, of):
        """Asks both of a file, and answers whether it is sound."""
        with open(self.path, "wb") as it:
            it.write(content)
        return self.agree_on(self.path, of)

    def agree_on(self, path, of):
        """Asks both of the file of a path."""
        with open(path, "rb") as it:
            sound = is_sound(it.read())
        words = [self.dbck, "check", "--limit", "1", path]
        status = subprocess.run(words, stdin=subprocess.DEVNULL, stdout=subprocess.DEVNULL, stderr=subprocess.DEVNULL, close_fds=False).returncode
        if status not in ((0,) if sound else (1, 3)):
            self.complain(f"{of}: the program ends with {status}, and it is {'sound' if sound else 'not sound'}")
        return sound

    def agree_on_bytes(self, name, content):
        """Each byte of each page: some leave the file sound, as those of payloads do, and others do not."""
        for start in range(0, len(content), 512):
            answers = set()
            for at in range(start, start + 512):
                for byte in {0, 255} - {content[at]}:
                    changed = content[:at] + bytes([byte]) + content[at + 1:]
                    answers.add(self.agree(changed, f"{name} with {byte} at {at}"))
            if answers != {True, False}:
                self.complain(f"{name}: no byte from {start} on changes the answer, or each does")

    def agree_on_lengths(self, name, content):
        for length in range(len(content)):
            if self.agree(content[:length], f"{name} cut to {length} bytes"):
                self.complain(f"{name} cut to {length} bytes is sound")


def main():
    if len(sys.argv) < 3:
        sys.exit(__doc__)
    beside = Beside(*sys.argv[1:3])
    for path in sys.argv[3:]:
        beside.agree_on(path, path)
    for text, sound in FILES:
        if beside.agree(make.content(text), text) != sound:
            beside.complain(f"{text}: not {sound}")
    for name in CHANGED:
        beside.agree_on_bytes(name, make.content(name))
    beside.agree_on_lengths("long-row 3", make.content("long-row 3"))
    sys.exit(1 if beside.complaints else 0)


if __name__ == "__main__":
    main()
