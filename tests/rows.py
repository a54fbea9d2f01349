#!/usr/bin/env python3
"""Which rows `explain` names, beside a slow reading of the same files: rows.py DBCK FOLDER [NUMBER].

Makes databases with a table each, injures each in ten ways, and compares, for each file with faults in the table, the lines of rows below the
count of its tree with those that a walk over the file gives here, by the faults that `check` reports. Each row that the tree does not lead to
any more has to be within the ranges, and for holes, cut files, wrong types and wrong children the ranges hold at the median as many rowids
as were lost. With a file in place of FOLDER it prints the lines of its tables.
"""

import os
import random
import re
import sqlite3
import statistics
import subprocess
import sys

NOT_REACHED, ON_FAULTY, CUT_SHORT = "rows not reached", "rows on pages with faults", "rows cut short"


def varint(page, at):
    value = 0
    for i in range(9):
        byte = page[at + i] if at + i < len(page) else 0
        if i == 8:
            return value << 8 | byte, 9
        value = value << 7 | byte & 127
        if byte < 128:
            return value, i + 1


def signed(value):
    return value - (1 << 64) if value >= 1 << 63 else value


class Database:
    def __init__(self, content, faults):
        self.content = content
        size = int.from_bytes(content[16:18], "big")
        self.size = 65536 if size == 1 else size
        self.usable = self.size - content[20]
        self.faults = faults
        self.of_place = {}
        for code, page, item, value in faults:
            self.of_place.setdefault((page, item), set()).add(code)
        self.codes = {}
        for code, page, item, value in faults:
            self.codes.setdefault(page, set()).add(code)
        self.start = {}
        self.page_range = {}
        self.first_leaf = {}
        self.child_range = {}
        self.late = {}
        self.chain_row = {}
        self.seen = set()

    def page(self, number):
        return self.content[(number - 1) * self.size:number * self.size]

    def number(self, page, at, size=4):
        return int.from_bytes(page[at:at + size], "big")

    def is_refused(self, page, item):
        return self.of_place.get((page, item), set()) & {"R01", "R02", "R03", "T04"}

    def chain(self, page, item, first, left, rowid):
        """The overflow pages of a cell: each belongs to its row."""
        row = self.start[page], rowid
        self.chain_row[page, item] = row
        while left > 0 and not self.is_refused(page, item) and first not in self.seen:
            self.seen.add(first)
            self.chain_row[first, 0] = row
            left -= self.usable - 4
            page, item, first = first, 0, self.number(self.page(first), 0)

    def leaf_cell(self, page, number, i, at):
        size, n = varint(page, at)
        rowid, m = varint(page, at + n)
        rowid = signed(rowid)
        most = self.usable - 35
        if size > most:
            least = (self.usable - 12) * 32 // 255 - 23
            local = least + (size - least) % (self.usable - 4)
            local = local if local <= most else least
            self.chain(number, i, self.number(page, at + n + m + local), size - local, rowid)
        return rowid

    def walk(self, start, number, greatest, up_to):
        """A page of a table, after keys up to `greatest`; the greatest key after it."""
        self.seen.add(number)
        self.start[number] = start
        self.page_range[number] = greatest, up_to
        if self.codes.get(number, set()) & {"P01", "P02", "P03"}:
            return greatest
        page = self.page(number)
        head = 100 if number == 1 else 0
        is_leaf = page[head] == 13
        if is_leaf:
            self.first_leaf.setdefault(start, (greatest, up_to))
        before = None
        for i in range(self.number(page, head + 3, 2)):
            unreadable = self.of_place.get((number, i), set()) & {"P05", "P06"}
            at = self.number(page, head + (8 if is_leaf else 12) + 2 * i, 2)
            key = None
            if not unreadable and is_leaf:
                key = self.leaf_cell(page, number, i, at)
                self.late[number, i] = (key - 1 if key > -1 << 63 else None), key
            elif not unreadable:
                key = signed(varint(page, at + 4)[0])
                greatest = self.child(start, number, i, self.number(page, at), greatest, key)
                self.late[number, i] = before, key
            before = key
            if key is not None and (greatest is None or key > greatest):
                greatest = key
        if not is_leaf:
            count = self.number(page, head + 3, 2)
            greatest = self.child(start, number, count, self.number(page, head + 8), greatest, up_to)
        return greatest

    def child(self, start, number, item, page, greatest, up_to):
        self.child_range[number, item] = greatest, up_to
        if self.is_refused(number, item):
            return greatest
        return self.walk(start, page, greatest, up_to)

    def range_of(self, fault):
        """The start, kind and bounds of the rows of a fault in a table, or None."""
        code, page, item, value = fault
        if code in ("R01", "R02", "R03", "T04", "O01"):
            if page == 0:
                return item, NOT_REACHED, (None, None)
            if code != "O01" and (page, item) in self.child_range:
                return self.start[page], NOT_REACHED, self.child_range[page, item]
            if (page, item) not in self.chain_row:
                return None
            start, rowid = self.chain_row[page, item]
            return start, CUT_SHORT, (rowid - 1 if rowid > -1 << 63 else None, rowid)
        if page not in self.page_range:
            return None
        if code in ("P01", "P02", "P03"):
            return self.start[page], NOT_REACHED, self.page_range[page]
        if code == "T06":
            return self.start[page], ON_FAULTY, self.late[page, item]
        if code == "T05":
            return self.start[page], ON_FAULTY, self.leaf_range(page)
        if code[0] == "P":
            return self.start[page], ON_FAULTY, self.page_range[page]
        return None

    def leaf_range(self, page):
        """The bounds of a leaf at another depth: where they go on from those of the first leaf of its tree, of both."""
        above, up_to = self.page_range[page]
        first_above, end = self.first_leaf[self.start[page]]
        return (first_above if end is not None and end == above else above), up_to

    def ranges(self, start):
        """All ranges of a start, joined where they touch."""
        found = []
        for fault in self.faults:
            r = self.range_of(fault)
            if r is None or r[0] != start:
                continue
            kind, (above, up_to) = r[1], r[2]
            if above is not None and up_to is not None and above >= up_to:
                continue
            if found and found[-1][0] == kind:
                last = found[-1][1]
                if last == (above, up_to):
                    continue
                if kind != CUT_SHORT and last[1] is not None and last[1] == above:
                    found[-1] = kind, (last[0], up_to)
                    continue
            found.append((kind, (above, up_to)))
        return found


def bounds_text(kind, bounds):
    above, up_to = bounds
    if kind == CUT_SHORT:
        return str(up_to)
    return " and ".join([f"above {above}"] * (above is not None) + [f"up to {up_to}"] * (up_to is not None))


def lines(ranges):
    written = []
    for kind in (NOT_REACHED, ON_FAULTY, CUT_SHORT):
        of_kind = [bounds for k, bounds in ranges if k == kind]
        if not of_kind:
            continue
        if (None, None) in of_kind and kind != CUT_SHORT:
            written.append(f"        {kind}: all rows")
            continue
        text = ", ".join(bounds_text(kind, bounds) for bounds in of_kind[:10])
        more = f" and {len(of_kind) - 10} more" if len(of_kind) > 10 else ""
        written.append(f"        {kind}: {'' if kind == CUT_SHORT else 'rowids '}{text}{more}")
    return written


FAULT = re.compile(r"([A-Z]\d\d) page (\d+) item (\d+) value (-?\d+):")


def faults_of(dbck, path):
    out = subprocess.run([dbck, "check", "--limit", "1000000", path], capture_output=True, text=True).stdout
    return [(m[1], int(m[2]), int(m[3]), int(m[4])) for m in FAULT.finditer(out)]


def schema(path):
    """The tables with rowids, as they were: start, root page, and the rows of each."""
    db = sqlite3.connect(path)
    tables = []
    for start, (name, root) in enumerate(db.execute("SELECT name, rootpage FROM sqlite_schema ORDER BY rowid"), 1):
        tables.append((start, name, root, [row for row, in db.execute(f'SELECT rowid FROM "{name}"')]))
    db.close()
    return tables


def shown(text):
    """Of each start line of a summary its root page, and the lines of rows below it."""
    found, last = {}, None
    for line in text.splitlines():
        head = re.match(r"    +\d+ in .* \(root page (\d+)\)", line)
        if head:
            last = found.setdefault(int(head[1]), [])
        elif line.startswith("        rows ") and last is not None:
            last.append(line)
        else:
            last = None
    return found


def make(path, number):
    """A table of some pages: rows of two sizes, and rowids with gaps."""
    random.seed(number)
    db = sqlite3.connect(path)
    db.execute(f"PRAGMA page_size = {random.choice([512, 1024, 4096])}")
    db.execute("CREATE TABLE orders (id INTEGER PRIMARY KEY, note TEXT)")
    row = 0
    for _ in range(random.randrange(200, 1500)):
        row += random.choice([1, 1, 1, 2, 5])
        long = random.random() < 0.01
        db.execute("INSERT INTO orders VALUES (?, ?)", (row, "x" * (random.randrange(3000, 9000) if long else random.randrange(20, 80))))
    db.commit()
    db.close()


WAYS = ("hole", "cut", "type", "child", "sibling", "pointer", "content", "chain", "fragments", "root")
MEDIAN_WAYS = ("hole", "cut", "type", "child")


def injure(content, way, tree):
    """The file with one injury; None where the tree has no place for it."""
    bad = bytearray(content)
    size, interiors, leaves, chains = tree.size, tree.interiors, tree.leaves, tree.overflows
    begin = lambda page: (page - 1) * size
    if way == "hole":
        first = random.choice(leaves)
        bad[begin(first):begin(first) + 3 * size] = bytes(len(bad[begin(first):begin(first) + 3 * size]))
    elif way == "cut":
        pages = len(bad) // size
        bad = bad[:size * random.randrange(pages * 2 // 3, pages)]
    elif way == "type":
        bad[begin(random.choice(leaves))] = random.choice([0, 1, 7, 77])
    elif way in ("child", "sibling"):
        page = random.choice(interiors)
        at = begin(page) + tree.number(tree.page(page), 12 + 2 * random.randrange(tree.number(tree.page(page), 3, 2)), 2)
        bad[at:at + 4] = (0xffffff if way == "child" else random.choice(leaves)).to_bytes(4, "big")
    elif way == "pointer":
        page = random.choice(leaves)
        at = begin(page) + 8 + 2 * random.randrange(tree.number(tree.page(page), 3, 2))
        bad[at:at + 2] = b"\xff\xff"
    elif way == "content":
        page = random.choice(leaves)
        bad[begin(page) + 5:begin(page) + 7] = b"\x00\x01"
    elif way == "chain":
        if not chains:
            return None
        page = random.choice(chains)
        bad[begin(page):begin(page) + 4] = b"\x00\xff\xff\xff"
    elif way == "fragments":
        bad[begin(random.choice(leaves)) + 7] = 61
    elif way == "root":
        bad[begin(2)] = 0
    return bytes(bad)


def reached(tree, root):
    """The rowids that a walk over the tree finds."""
    found = set()
    for page in tree.page_range:
        page_bytes = tree.page(page)
        if tree.codes.get(page, set()) & {"P01", "P02", "P03"} or page_bytes[:1] != b"\x0d":
            continue
        for i in range(tree.number(page_bytes, 3, 2)):
            if not tree.of_place.get((page, i), set()) & {"P05", "P06"}:
                at = tree.number(page_bytes, 8 + 2 * i, 2)
                found.add(signed(varint(page_bytes, at + varint(page_bytes, at)[1])[0]))
    return found


def is_within(row, bounds):
    above, up_to = bounds
    return (above is None or above < row) and (up_to is None or row <= up_to)


def walked(content, faults, start, root):
    tree = Database(content, faults)
    if not tree.is_refused(0, start):
        tree.walk(start, root, None, None)
    tree.leaves = [p for p in tree.page_range if tree.page(p)[:1] == b"\x0d"]
    tree.interiors = [p for p in tree.page_range if tree.page(p)[:1] == b"\x05"]
    tree.overflows = sorted(tree.seen - set(tree.page_range))
    return tree


def main():
    dbck, folder = sys.argv[1], sys.argv[2]
    number = int(sys.argv[3]) if len(sys.argv) > 3 else 200
    os.makedirs(folder, exist_ok=True)
    wrong, faulty, outside, held = 0, 0, 0, {}
    for k in range(number):
        path, bad_path = f"{folder}/rows-{k}.db", f"{folder}/bad-{k}.db"
        if os.path.exists(path):
            os.remove(path)
        make(path, k)
        content = open(path, "rb").read()
        start, _, root, rows = schema(path)[0]
        whole = walked(content, [], start, root)
        for way in WAYS:
            bad = injure(content, way, whole)
            if bad is None:
                continue
            with open(bad_path, "wb") as file:
                file.write(bad)
            faults = faults_of(dbck, bad_path)
            tree = walked(bad, faults, start, root)
            ranges = tree.ranges(start)
            text = subprocess.run([dbck, "explain", bad_path], capture_output=True, text=True).stdout
            found = shown(text).get(root)
            if found is None:
                continue
            faulty += 1
            if found != lines(ranges):
                wrong += 1
                print(f"{k} {way}: explain has\n" + "\n".join(found) + "\nand the walk gives\n" + "\n".join(lines(ranges)))
            lost = set(rows) - reached(tree, root)
            bounds = [b for kind, b in ranges if kind != CUT_SHORT]
            out = [row for row in lost if not any(is_within(row, b) for b in bounds)]
            if out:
                outside += 1
                print(f"{k} {way}: lost rows {sorted(out)[:5]} are in no range")
            if lost:
                inside = [row for row in rows if any(is_within(row, b) for b in bounds)]
                held.setdefault(way, []).append(len(inside) / len(lost))
    for way, shares in held.items():
        print(f"{way}: {len(shares)} files with lost rows; the ranges hold {statistics.median(shares):.1f} rows for each, at the median")
    too_wide = [way for way in MEDIAN_WAYS if way in held and statistics.median(held[way]) > 1.0]
    print(f"{faulty} files with faults in the table, {wrong} with other lines, {outside} with lost rows in no range")
    return 1 if wrong or outside or too_wide or faulty < number else 0


if __name__ == "__main__":
    sys.exit(main())
