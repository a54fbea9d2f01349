"""Databases of several shapes, and injuries of them, for repair.py. What an injury does depends on the bytes of the database and on a
seed alone."""

import subprocess

import damage

# Tables. Each has a number of columns of its own, so that a row whose table is not known can be told by it.
CUSTOMER = "CREATE TABLE customer(id INTEGER PRIMARY KEY, name TEXT NOT NULL, city TEXT); CREATE INDEX customer_name ON customer(name);"
INVOICE = "CREATE TABLE invoice(number INT, customer INT, amount REAL, day TEXT, note TEXT); CREATE INDEX invoice_day ON invoice(day);"
PRICE = (
    "CREATE TABLE price(article TEXT, day INT, cents INT, label TEXT, PRIMARY KEY (day, article)) WITHOUT ROWID;"
    "CREATE INDEX price_cents ON price(cents);"
)
PICTURE = "CREATE TABLE picture(id INTEGER PRIMARY KEY, title TEXT, kind INT, body TEXT, width INT, height INT);"
STOCK = "CREATE TABLE stock(place TEXT PRIMARY KEY, amount INT) WITHOUT ROWID;"
LOG = "CREATE TABLE log(id INTEGER PRIMARY KEY AUTOINCREMENT, text TEXT); CREATE VIEW last AS SELECT max(id) FROM log;"
# Of odd shape: no key and equal rows; keys that are the same in capitals; quotes in names; generated columns; a trigger that fires at
# each row; columns by the names of the rowid; types that are checked, indexes of some rows and of expressions.
REPEATED = "CREATE TABLE repeated(kind, text); CREATE INDEX repeated_kind ON repeated(kind);"
CODE = "CREATE TABLE code(code TEXT PRIMARY KEY COLLATE NOCASE, text TEXT COLLATE NOCASE, number INT);"
COUNTRY = "CREATE TABLE country(code TEXT COLLATE NOCASE, part INT, name TEXT COLLATE NOCASE, size, PRIMARY KEY (part, code)) WITHOUT ROWID;"
QUOTED = (
    'CREATE TABLE "sold ""on"" sale"("the ""id""" INTEGER PRIMARY KEY, "select" TEXT, "it\'s, [so] `it`" INT);'
    'CREATE INDEX "by ""select""" ON "sold ""on"" sale"("select"); CREATE VIEW "all ""sold""" AS SELECT * FROM "sold ""on"" sale";'
)
QUOTED_KEY = 'CREATE TABLE "key ""of"" two"("a ""b""" TEXT, "order" INT, "c)" TEXT, d, PRIMARY KEY ("order", "a ""b""")) WITHOUT ROWID;'
WEIGHT = (
    "CREATE TABLE weight(id INTEGER PRIMARY KEY, twice AS (grams * 2), grams INT, kilos REAL AS (grams / 1000.0) STORED, label TEXT);"
    "CREATE INDEX weight_twice ON weight(twice);"
)
LENGTH = (
    "CREATE TABLE length(half AS (mm / 2), name TEXT, mm INT, metres REAL AS (mm / 1000.0) STORED, kind TEXT, day TEXT, PRIMARY KEY (kind, name))"
    " WITHOUT ROWID;"
)
ORDERS = (
    "CREATE TABLE orders(id INTEGER PRIMARY KEY AUTOINCREMENT, text TEXT); CREATE TABLE history(text TEXT, at INT, kind TEXT);"
    "CREATE TRIGGER ordered AFTER INSERT ON orders BEGIN INSERT INTO history VALUES ('ordered ' || new.text, new.id, 'new'); END;"
)
NAMED = "CREATE TABLE named(_rowid_ TEXT, text TEXT); CREATE INDEX named_text ON named(text);"
NO_NAME = "CREATE TABLE no_name(rowid, _ROWID_ TEXT, oid INT);"
CHECKED = (
    "CREATE TABLE checked(a INTEGER PRIMARY KEY, b TEXT CHECK (length(b) > 2), c REAL NOT NULL, d INT UNIQUE, e ANY) STRICT;"
    "CREATE INDEX checked_e ON checked(a + d); CREATE VIEW checked_sum AS SELECT sum(c) FROM checked;"
)
PARTIAL = "CREATE TABLE partial(a, b INTEGER NOT NULL, c TEXT); CREATE UNIQUE INDEX partial_c ON partial(c) WHERE b > 100;"

# The rows of each, with the number i of the row.
VALUES = {
    "customer": "i, 'name ' || (i * 7919 % 10007), 'city ' || (i % 37)",
    "invoice": "i * 3, i % 91, i / 8.0, '2026-' || (i % 12) || '-' || (i % 28), 'note of invoice ' || i",
    "price": "'article ' || (i % 53), i, i * 17, 'label ' || (i % 101)",
    "picture": "i, 'title ' || i, i % 7, substr(replace(hex(zeroblob(9000)), '00', i || ' '), 1, i * 271 % 8000), i % 640, i % 480",
    "stock": "'place ' || (i * 7919 % 10007), i",
    "log": "NULL, 'entry ' || i || ' of the log'",
    "words": "'word' || (i % 17) || ' and ' || i, 'more text ' || (i * 31)",
    "repeated": "i / 9, 'text ' || (i / 5)",
    "code": "iif(i % 2, 'CODE ', 'code ') || i, iif(i % 3, 'Text', 'TEXT') || (i / 4), i",
    "country": "iif(i % 2, 'AB', 'ab') || i, i % 13, iif(i % 3, 'Name', 'NAME') || (i / 4), iif(i % 5, i, NULL)",
    '"sold ""on"" sale"': "i, 'a \"name\" of ' || i, i * 3",
    '"key ""of"" two"': "'key ' || (i * 7919 % 10007), i, 'it''s \"' || i, i * 2",
    "weight(grams, label)": "i * 7, 'weight of ' || i",
    "length(name, mm, kind, day)": "'name ' || (i * 7919 % 10007), i * 12, 'kind ' || (i % 7), 'day ' || i",
    "orders(text)": "'order ' || i",
    "named": "'row ' || i, 'text ' || (i * 31 % 97)",
    "no_name": "i / 9, 'row ' || (i / 5), i / 7",
    "checked": "i, 'text ' || i, i / 8.0, i * 3, iif(i % 3, i, 'any')",
    "partial": "i, i * 5, 'c' || i",
}
# What tells the rows that are deleted again.
NUMBER = {
    "customer": "id", "invoice": "number", "price": "day", "picture": "id", "stock": "amount", "log": "id", "code": "number", "country": "size",
    '"sold ""on"" sale"': '"the ""id"""', '"key ""of"" two"': '"order"', "weight(grams, label)": "grams", "length(name, mm, kind, day)": "mm",
    "orders(text)": "id", "named": "rowid", "checked": "a", "partial": "a",
}


def numbered(first, last, table):
    """A statement that puts the rows of these numbers into a table."""
    numbers = f"WITH RECURSIVE n(i) AS (SELECT {first} UNION ALL SELECT i + 1 FROM n WHERE i < {last})"
    return f"{numbers} INSERT INTO {table} SELECT {VALUES[table]} FROM n;"


def two_steps(count, tables):
    """The statements that fill tables: two thirds of the rows, then the others, and some are deleted again."""
    first = "".join(numbered(1, count * 2 // 3, table) for table in tables)
    second = "".join(numbered(count * 2 // 3 + 1, count, table) for table in tables)
    return first, second + "".join(
        f"DELETE FROM {table.split('(')[0]} WHERE {NUMBER[table]} % 11 = 5;" for table in tables if table in NUMBER
    )


# By name: the page size, settings, what is made, and how many rows of which tables.
SHAPES = {
    "rowid-512": (512, "", CUSTOMER + INVOICE, 250, ("customer", "invoice")),
    "rowid-4096": (4096, "", CUSTOMER + INVOICE + LOG, 700, ("customer", "invoice", "log")),
    "deep-512": (512, "", INVOICE + CUSTOMER, 900, ("invoice", "customer")),
    "without-rowid-512": (512, "", PRICE + CUSTOMER + STOCK, 140, ("price", "customer", "stock")),
    "without-rowid-4096": (4096, "", STOCK + PRICE, 900, ("stock", "price")),
    "blobs-1024": (1024, "", PICTURE + CUSTOMER, 60, ("picture", "customer")),
    "blobs-4096": (4096, "", PICTURE + PRICE, 120, ("picture", "price")),
    "full-vacuum-512": (512, "PRAGMA auto_vacuum = full;", CUSTOMER + PICTURE + PRICE, 60, ("customer", "picture", "price")),
    "incremental-1024": (1024, "PRAGMA auto_vacuum = incremental;", INVOICE + STOCK, 200, ("invoice", "stock")),
    "freelist-1024": (1024, "", CUSTOMER + PICTURE + PRICE, 80, ("customer", "picture", "price")),
    "late-1024": (1024, "", CUSTOMER, 200, ("customer",)),
    "utf-16le-1024": (1024, "PRAGMA encoding = 'UTF-16le';", CUSTOMER + PRICE, 150, ("customer", "price")),
    "fts5-1024": (1024, "", "CREATE VIRTUAL TABLE words USING fts5(a, b);" + CUSTOMER, 120, ("words", "customer")),
    "fts4-2048": (2048, "", "CREATE VIRTUAL TABLE words USING fts4(a, b);" + INVOICE, 200, ("words", "invoice")),
    "pages-65536": (65536, "", CUSTOMER + PRICE + INVOICE, 4000, ("customer", "price", "invoice")),
    "repeated-512": (512, "", REPEATED + CODE + COUNTRY, 150, ("repeated", "code", "country")),
    "quoted-512": (512, "", QUOTED + QUOTED_KEY, 150, ('"sold ""on"" sale"', '"key ""of"" two"')),
    "generated-512": (512, "", WEIGHT + LENGTH + CUSTOMER, 120, ("weight(grams, label)", "length(name, mm, kind, day)", "customer")),
    "triggers-1024": (1024, "", ORDERS + PRICE, 200, ("orders(text)", "price")),
    "named-512": (512, "", NAMED + NO_NAME, 200, ("named", "no_name")),
    "checked-512": (512, "", CHECKED + PARTIAL, 150, ("checked", "partial")),
}
# What the second step makes.
LATER = {"late-1024": (PRICE, "price")}


def schema(shape):
    """The statements that make a database of a shape, without its rows."""
    _, settings, tables, _, _ = SHAPES[shape]
    return settings + tables + LATER.get(shape, ("",))[0]


def made(path, shape):
    """Makes a database at a path. Gives its bytes when it had two thirds of its rows, and at last."""
    page_size, settings, tables, count, names = SHAPES[shape]
    first, second = two_steps(count, names)
    if shape in LATER:
        later, table = LATER[shape]
        second += later + numbered(1, count, table)
    if shape.startswith("freelist"):
        second += "DELETE FROM picture WHERE id % 3 > 0;"
    path.unlink(missing_ok=True)
    states = []
    for sql in (f"PRAGMA page_size = {page_size}; {settings} BEGIN; {tables} {first} COMMIT;", f"BEGIN; {second} COMMIT; PRAGMA optimize;"):
        subprocess.run(["sqlite3", "-batch", "-init", "/dev/null", path], input=sql, text=True, stdout=subprocess.DEVNULL, check=True)
        states.append(path.read_bytes())
    return states


class Patient(damage.Database):
    """The bytes of a database, with what each of its pages is by the rows of `dbck stat --all`."""

    def __init__(self, data, before, stat, seed):
        super().__init__(data, seed)
        self.before = before
        self.rows = [line.split("\t") for line in stat.splitlines()]

    def of_kind(self, *kinds):
        """The pages of a kind of `stat`."""
        return [int(row[2]) for row in self.rows if row[3] in kinds]

    def tree_pages(self):
        return self.of_kind("internal", "leaf")

    def other(self, at, size):
        """Puts another number at a place."""
        value = self.number(at, size)
        choices = [0, 1, value + 1, value - 1, 1 + self.below(self.pages), self.pages + 1 + self.below(1000), self.below(1 << (8 * size))]
        choices = [choice for choice in choices if choice % (1 << (8 * size)) != value]
        self.put(at, size, self.one_of(choices))

    def cells(self, page):
        """Where the cells of a page of a tree are."""
        return [self.start(page) + self.number(at, 2) for at in self.cell_pointers(page)]

    def varint(self, at):
        """A varint of at most eight bytes, and where the next begins."""
        value = 0
        while True:
            value = value << 7 | self.data[at] & 127
            at += 1
            if self.data[at - 1] < 128:
                return value, at

    def schema_rows(self):
        """Where the cells of the rows of the schema are."""
        leaves = [int(row[2]) for row in self.rows if row[0] == "sqlite_schema" and row[3] == "leaf"]
        return [cell for page in leaves for cell in self.cells(page)]

    def fill(self, at, size):
        """Bytes of one look: zeros, 255, or at random."""
        look = self.below(3)
        self.data[at : at + size] = [bytes(size), b"\xff" * size, bytes(self.below(256) for _ in range(size))][look]


# Injuries. Each changes the bytes of a database, or gives True where it has no place for one.

def page_head(db):
    at, size = db.one_of([(0, 1), (1, 2), (3, 2), (5, 2), (7, 1)])
    db.other(db.head(db.one_of(db.tree_pages())) + at, size)


def cell_pointer(db):
    db.other(db.one_of(db.cell_pointers(db.one_of([page for page in db.tree_pages() if db.cell_pointers(page)]))), 2)


def cell_start(db):
    """The first bytes of a cell: its left child, payload length or rowid."""
    cell = db.one_of(db.cells(db.one_of([page for page in db.tree_pages() if db.cell_pointers(page)])))
    db.other(cell + db.below(3), 1)


def child(db):
    places = [at for page in db.of_kind("internal") for at in db.page_numbers(page)]
    return db.other(db.one_of(places), 4) if places else True


def chain(db):
    """The number of an overflow page: in the page before it, or in the cell."""
    overflow = [row for row in db.rows if row[3] == "overflow"]
    if not overflow:
        return True
    row = db.one_of(overflow)
    if db.chance() < 0.5 or not row[1].endswith("+000000"):
        return db.other(db.start(int(row[2])), 4)
    path, cell = row[1].rsplit("/", 1)
    owner = next(int(other[2]) for other in db.rows if other[0] == row[0] and other[1] == path + "/")
    begin = db.cells(owner)[int(cell.split("+")[0], 16)]
    return db.other(db.data.index(int(row[2]).to_bytes(4, "big"), begin), 4)


def freelist(db):
    """The first trunk or the count in the header, or a number of a trunk."""
    trunks = db.of_kind("trunk")
    if not trunks:
        return True
    at = db.start(db.one_of(trunks))
    leaves = [at + 8 + 4 * leaf for leaf in range(db.number(at + 4, 4))]
    return db.other(db.one_of([32, 36, at, at + 4, *leaves[:4]]), 4)


def pointer_map(db):
    maps = db.of_kind("map")
    if not maps:
        return True
    at = db.start(db.one_of(maps)) + 5 * db.below(min(db.pages - 2, db.page_size // 5))
    return db.other(at, 1) if db.chance() < 0.5 else db.other(at + 1, 4)


def schema_root(db):
    """The root page in a row of the schema."""
    choices = []
    for cell in db.schema_rows():
        record = db.varint(db.varint(cell)[1])[1]
        size, at = db.varint(record)
        body, types = record + size, []
        while at < record + size:
            kind, at = db.varint(at)
            types.append(kind)
        if types[3] in (1, 2):
            choices.append((body + sum((kind - 13) // 2 for kind in types[:3]), types[3]))
    return db.other(*db.one_of(choices)) if choices else True


def schema_row(db):
    """A byte of a row of the schema."""
    at = db.one_of(db.schema_rows()) + db.below(60)
    db.data[at] ^= 1 + db.below(255)


def some_bytes(db):
    """Up to 16 bytes at random, in a page of a tree."""
    page, size = db.one_of(db.tree_pages()), 1 + db.below(16)
    at = db.head(page) + db.below(db.start(page + 1) - db.head(page) - size)
    db.data[at : at + size] = bytes(db.below(256) for _ in range(size))


def wiped_bytes(db):
    """Up to 120 bytes of a page of a tree are zeros."""
    page, size = db.one_of(db.tree_pages()), 4 + db.below(117)
    at = db.head(page) + db.below(db.start(page + 1) - db.head(page) - size)
    db.data[at : at + size] = bytes(size)


def sector(db):
    db.fill(512 * (1 + db.below(len(db.data) // 512 - 1)), 512)


def page(db):
    number = 2 + db.below(db.pages - 1)
    db.fill(db.start(number), db.page_size)


def stale_page(db):
    """A page is as it was before the last transaction."""
    size, old = db.page_size, db.before
    changed = [at for at in range(size, min(len(db.data), len(old)), size) if db.data[at : at + size] != old[at : at + size]]
    at = db.one_of(changed)
    db.data[at : at + size] = old[at : at + size]


def stale_first_page(db):
    db.data[: db.page_size] = db.before[: db.page_size]


def exchanged_pages(db):
    one, other = db.start(2 + db.below(db.pages - 1)), db.start(2 + db.below(db.pages - 1))
    size = db.page_size
    db.data[one : one + size], db.data[other : other + size] = db.data[other : other + size], db.data[one : one + size]


def truncated(db):
    size = len(db.data) - 1 - db.below(len(db.data) // 2)
    del db.data[size if db.chance() < 0.5 else -(-size // db.page_size) * db.page_size :]


def padded(db):
    size = db.one_of([db.below(db.page_size), db.page_size * (1 + db.below(4)), 1 + db.below(3 * db.page_size)])
    db.data += bytes(db.below(256) for _ in range(size)) if db.chance() < 0.5 else bytes(size)


def header(db):
    at, size = db.one_of(damage.HEADER[1:])
    db.other(at, size)


def first_page_gone(db):
    db.fill(0, db.page_size if db.chance() < 0.5 else min(512, db.page_size))


INJURIES = {
    "a number in the head of a page": page_head,
    "a cell pointer": cell_pointer,
    "the start of a cell": cell_start,
    "the number of a child": child,
    "a number of an overflow chain": chain,
    "a number of the freelist": freelist,
    "an entry of the pointer map": pointer_map,
    "a root page in the schema": schema_root,
    "a byte of a row of the schema": schema_row,
    "bytes at random": some_bytes,
    "bytes wiped": wiped_bytes,
    "a sector": sector,
    "a page": page,
    "a page as it was before": stale_page,
    "page 1 as it was before": stale_first_page,
    "two pages exchanged": exchanged_pages,
    "the end cut off": truncated,
    "bytes after the end": padded,
    "a number of the header": header,
    "page 1 gone": first_page_gone,
}
