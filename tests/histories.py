"""Databases with random histories, each by a seed: tables and indexes of several kinds, whose rows are inserted, deleted and updated by turns."""

import damage

PRAGMAS = ["", "", "", "PRAGMA auto_vacuum = 1;", "PRAGMA auto_vacuum = 2;", "PRAGMA encoding = 'UTF-16le';"]
# The key of a table beside its other columns, and how its definition ends.
KEYS = [
    ("", ""),
    ("id INTEGER PRIMARY KEY, ", ""),
    ("id INT PRIMARY KEY, ", "WITHOUT ROWID"),
    ("id TEXT PRIMARY KEY, ", "WITHOUT ROWID"),
]
LENGTHS = [0, 1, 2, 3, 5, 8, 13, 30, 60, 100]


class Table:
    """A table of some columns, with or without a key. If its rows are alike, most have the usual values."""

    def __init__(self, seeded, name):
        self.seeded = seeded
        self.name = name
        self.key, self.end = seeded.one_of(KEYS)
        self.columns = "abc"[: 1 + seeded.below(3)]
        self.is_alike = seeded.chance() < 0.5
        self.usual = [self.value() for _ in self.columns]

    def value(self):
        seeded = self.seeded
        kind = seeded.below(8)
        if kind == 0:
            return "NULL"
        if kind == 1:
            return str(seeded.below(310) - 9)
        if kind == 2:
            return str(seeded.below(2**41) - 2**40)
        if kind == 3:
            return f"zeroblob({seeded.one_of([0, 3, 40, 200, 700])})"
        return repr("".join(seeded.one_of("abcdefgh ") for _ in range(seeded.one_of(LENGTHS))))

    def created(self):
        yield f"CREATE TABLE {self.name}({self.key}{', '.join(self.columns)}) {self.end};"
        for column in self.columns:
            if self.seeded.chance() < 0.4:
                order = self.seeded.one_of(["", "DESC", "COLLATE NOCASE"])
                yield f"CREATE INDEX {self.name}{column} ON {self.name}({column} {order});"

    def inserted(self):
        for _ in range(self.seeded.one_of([3, 8, 20, 40, 80])):
            is_usual = self.is_alike and self.seeded.chance() < 0.9
            key = [str(1 + self.seeded.below(400))] if self.key else []
            values = self.usual if is_usual else [self.value() for _ in self.columns]
            yield f"INSERT OR REPLACE INTO {self.name} VALUES ({', '.join(key + values)});"

    def changed(self):
        row = 1 + self.seeded.below(120)
        rows = self.seeded.one_of([f"= {row}", f"= {row}", f"= {row}", f"% {2 + row % 8} = 1", f"> {row}"])
        where = f"WHERE {'id' if self.key else 'rowid'} {rows}"
        if self.seeded.chance() < 0.5:
            return f"DELETE FROM {self.name} {where};"
        return f"UPDATE {self.name} SET {self.seeded.one_of(self.columns)} = {self.value()} {where};"


def history(seed):
    """The page size, how many bytes are reserved at the end of each page, and the statements of a database."""
    seeded = damage.Chance(seed)
    tables = [Table(seeded, f"t{number}") for number in range(1 + seeded.below(4))]
    statements = [statement for table in tables for statement in table.created()]
    for _ in range(1 + seeded.below(4)):
        statements += seeded.one_of(tables).inserted()
        statements += [seeded.one_of(tables).changed() for _ in range(seeded.below(12))]
    if seeded.chance() < 0.2:
        statements.append(f"DROP TABLE {seeded.one_of(tables).name};")
    page_size, reserved = seeded.one_of([512, 512, 1024, 4096]), seeded.one_of([0, 0, 0, 8])
    return page_size, reserved, "\n".join([seeded.one_of(PRAGMAS), "BEGIN;", *statements, "COMMIT;"])
