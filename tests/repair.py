#!/usr/bin/env python3
"""Injures databases and repairs each as docs/REPAIR.md says: repair.py [--few] [--list FILE] DBCK FOLDER.

It makes databases in FOLDER by the sqlite3 program, and injuries of them by a fixed seed. Over each it runs every recipe of
docs/REPAIR.md, and compares each row of each table, and of the schema, with the database before its injury. The last column of its
table is of the recipe that the page leads to. It ends with 1 where that one loses a row that another one saves, or has a row that
is neither of the database nor read out of the damaged file by a single command, or where `mend` says ok and `check` of the changed copy does
not. What `mend` made sound has a table of its own, with how many files are byte for byte as before.

Recipes with .recover need a sqlite3 that has it: SQLITE_RECOVER=PATH; docs/REPAIR.md says how to build one.
"""

import argparse
import collections
import concurrent.futures
import functools
import os
import pathlib
import re
import shutil
import sqlite3
import subprocess
import sys
import textwrap

import injuries

Counter = collections.Counter
REPAIR = pathlib.Path(__file__).resolve().parent.parent / "docs" / "REPAIR.md"
BOTH_WAYS = REPAIR.with_name("both-ways.sh")


# The choice, as docs/REPAIR.md has it.

def groups_of(explained):
    """The groups that `dbck explain` writes: the first line of each, and the indented ones below it."""
    return re.findall(r"^([A-Z][0-9]{2} page .*)\n((?:    .*\n)*)", explained, re.M)


def wrong_roots(explained):
    """The tables whose root page may be wrong, in groups of which one is: that of each `start`, with the other one of an R03; and, where a
    page that nothing refers to looks like an interior page of a table, each root that a P01 or R03 names."""
    lost = "    looks like an interior page of a table " in explained
    for head, lines in groups_of(explained):
        start = re.search("^    start [0-9]+: root of table ", lines, re.M)
        if start or (lost and head[:3] in ("P01", "R03")):
            names = re.findall("^    (?:start|page) [0-9]+.*?: root of (?:table|index) (.*)$", lines, re.M)
            if names and (start or ": root of table " in lines):
                yield names


def recipe_of(explained, status, done=()):
    """The recipe by what `dbck explain` writes to standard output, and its status. Steps that were done are not taken again."""
    lines = explained.splitlines()
    codes = {head[:3] for head, _ in groups_of(explained)}
    looks = [line for line in lines if line.startswith("    looks like ")]
    # Steps before a recipe.
    if (status == 3 or re.search("^P0[123] page 1 item ", explained, re.M)) and "Page 1" not in done:
        return "Page 1"
    if codes & {"H01", "H02", "H03", "H04"} and "The header" not in done:
        return "The header"
    if any(wrong_roots(explained)) and "The root page" not in done:
        return "The root page"
    # The recipes.
    if lines == ["ok"]:
        return "Nothing"
    whole = re.search(r"^    (\d+) of (\d+) tables? and (\d+) of (\d+) index(?:es)? without a fault$", explained, re.M)
    if status != 1 or not whole or whole[1] != whole[2] or re.search(r"\bin sqlite_schema\b", explained):
        return "Both ways"
    if whole[3] == whole[4] and not looks and "H06" not in codes:
        return "VACUUM INTO"
    # A page of a table without rowid looks like one of an index.
    if not looks and "R03" not in codes:
        return ".dump"
    return "Both ways"


# Recipes.

def recipes():
    """The first commands below each heading of docs/REPAIR.md, by the heading. A line that gives example values is left out."""
    parts = re.findall(r"^### ([^\n]*)(.*?)(?=^##|\Z)", REPAIR.read_text(), re.M | re.S)
    blocks = {heading: re.search(r"(?:^    .*\n)+", text, re.M) for heading, text in parts}
    return {heading: re.sub(r"^ *(\w+=\w+ ?)+\n", "", textwrap.dedent(block[0])) for heading, block in blocks.items() if block}


class Workshop:
    """Where copies are repaired."""

    def __init__(self, dbck, folder, name):
        self.dbck = dbck
        self.folder = folder / "work" / name
        self.recipes = recipes()
        self.copy, self.new = self.folder / "copy.db", self.folder / "new.db"
        self.path = os.environ["PATH"]
        self.recovers = "SQLITE_RECOVER" in os.environ
        self.plain = [recipe for recipe in PLAIN if self.recovers or recipe not in (".recover", "Both ways")]
        programs = {"dbck": dbck}
        if self.recovers:
            programs["sqlite3"] = pathlib.Path(os.environ["SQLITE_RECOVER"]).resolve()
        folder = folder / "bin" / name
        folder.mkdir(parents=True, exist_ok=True)
        for program, path in programs.items():
            (folder / program).unlink(missing_ok=True)
            (folder / program).symlink_to(path)
        self.path = f"{folder}:{self.path}"

    def begin(self, damage):
        """A folder with a copy of the damaged file, what lies beside docs/REPAIR.md, and the statements that made its tables."""
        self.encoding = damage.encoding
        shutil.rmtree(self.folder, ignore_errors=True)
        self.folder.mkdir(parents=True)
        shutil.copyfile(damage.file, self.copy)
        shutil.copyfile(BOTH_WAYS, self.folder / BOTH_WAYS.name)
        (self.folder / "schema.sql").write_text(damage.schema)

    def again(self):
        """The folder as it was before the last recipe made a database; the copy stays as the steps before it left it."""
        for made in ("new.db", "replaced.db", "dumped.db", "both-ways.log"):
            (self.folder / made).unlink(missing_ok=True)

    def run(self, recipe, **values):
        """Runs a recipe or commands, and gives whether an error was printed."""
        variables = {"PATH": self.path, "HOME": str(self.folder), **values}
        done = subprocess.run(["sh", "-c", self.recipes.get(recipe, recipe)], cwd=self.folder, env=variables, capture_output=True)
        return bool(done.stderr) or done.stdout.startswith(b"ROLLBACK")

    def mend(self):
        """Makes the changes of `dbck mend` in the copy, and gives whether it found some and ends with ok. Else the recipe makes none."""
        self.run("mend")
        lines = (self.folder / "mend.txt").read_text().splitlines()
        return len(lines) > 1 and lines[-1] == "ok"

    def explain(self):
        done = subprocess.run([self.dbck, "explain", "--limit", "10000", self.copy], capture_output=True, text=True, errors="replace")
        return done.stdout, done.returncode


def quoted(name):
    return '"' + name.replace('"', '""') + '"'


class Table:
    """A table of a database before its injury."""

    def __init__(self, connection, name, without_rowid):
        # Of each column: number, name, type, not null, default, place in the key, and 2 or 3 where it is generated, and not stored or stored.
        info = connection.execute(f"PRAGMA table_xinfo({quoted(name)})").fetchall()
        keys = [row[1] for row in sorted(info, key=lambda row: row[5]) if row[5]]
        self.name = name
        self.columns = [row[1] for row in info if row[6] == 0]
        stored = [row[1] for row in info if row[6] != 2]
        self.stored = keys + [column for column in stored if column not in keys] if without_rowid else stored
        types = {row[1]: row[2] for row in info}
        self.rowid = keys[0] if len(keys) == 1 and types[keys[0]] == "INTEGER" and not without_rowid else None
        self.query = f"SELECT {', '.join(map(quoted, self.columns))} FROM {quoted(name)} NOT INDEXED"
        self.rows = rows_of(connection, self.query)

    def lost(self):
        """The query that gives rows of lost_and_found as rows of this table."""
        place = {column: "id" if column == self.rowid else f"c{at}" for at, column in enumerate(self.stored)}
        return f"SELECT {', '.join(place[column] for column in self.columns)} FROM lost_and_found WHERE nfield = {len(self.stored)}"


class Schema:
    """The rows of the schema, but for the root pages, and for the statistics, which ANALYZE makes anew."""

    name = "sqlite_schema"
    query = (
        "SELECT type, name, tbl_name, sql FROM sqlite_schema"
        " WHERE sql IS NOT NULL AND name NOT GLOB 'lost_and_found*' AND name NOT GLOB 'sqlite_stat?'"
    )

    def __init__(self, connection):
        self.rows = rows_of(connection, self.query)

    def lost(self):
        return "SELECT 1 WHERE false"


def opened(path):
    connection = sqlite3.connect(f"file:{path}?mode=ro", uri=True)
    # Each run of bytes that are no text is one character: how many they are depends on the encoding that they went through.
    connection.text_factory = lambda text: re.sub("\ufffd+", "\ufffd", text.decode(errors="replace"))
    return connection


def rows_of(connection, sql):
    """The rows of a query, up to an error."""
    found = Counter()
    try:
        found.update(connection.execute(sql))
    except (sqlite3.Error, UnicodeDecodeError):
        pass
    return found


def tables_of(path):
    """The tables of a sound database."""
    connection = opened(path)
    names = [row[:1] + row[4:5] for row in connection.execute("SELECT name, 0, 0, 0, wr FROM pragma_table_list WHERE type IN ('table', 'shadow')")]
    return [Table(connection, name, wr) for name, wr in names if name != "sqlite_schema" and name != "sqlite_temp_schema"] + [Schema(connection)]


Result = collections.namedtuple("Result", "there lost wrong sound")


def result_of(folder, file, tables):
    """What a repaired file has, by table: the right rows, those that are kept elsewhere, and the wrong ones; and whether it is sound."""
    there, lost, wrong = ({table.name: Counter() for table in tables} for _ in range(3))
    if not file.exists():
        return Result(there, lost, wrong, False)
    connection = opened(file)
    others = [opened(folder / name) for name in ("replaced.db", "dumped.db") if (folder / name).exists()]
    for table in tables:
        found = rows_of(connection, table.query)
        there[table.name] = found & table.rows
        wrong[table.name] = found - table.rows
        missing = table.rows - found
        lost[table.name] = rows_of(connection, table.lost()) & missing
        for other in others:
            lost[table.name] |= rows_of(other, table.query) & missing
    sound = list(rows_of(connection, "PRAGMA integrity_check")) == [("ok",)]
    for one in (connection, *others):
        one.close()
    return Result(there, lost, wrong, sound)


def read_of(file, tables):
    """What a program reads of the tables of a file, up to the first error from either end."""
    there, wrong = {}, {}
    connection = opened(file)
    # With it SQLite reads what it can of a damaged schema.
    connection.execute("PRAGMA writable_schema = ON")
    for table in tables:
        found = Counter()
        # A row of the schema is no use by itself: of that nothing is made.
        for backwards in (0, 1) if isinstance(table, Table) else ():
            connection.execute(f"PRAGMA reverse_unordered_selects = {backwards}")
            found |= rows_of(connection, table.query)
        there[table.name], wrong[table.name] = found & table.rows, found - table.rows
    connection.close()
    return Result(there, collections.defaultdict(Counter), wrong, False)


def pages_like(explained, kind):
    """The pages that nothing refers to and that look like one of this kind, as far as `explain` writes them."""
    pages, page, wanted = [], None, False
    for line in explained.splitlines():
        if line.startswith("N01 page "):
            page, wanted = int(line.split()[2]), False
        elif line.startswith(f"    looks like {kind} "):
            wanted = True
            pages.append(page)
        elif wanted and (more := re.match(r"    and \d+ more pages? like it.*?: (.*)", line)):
            for run in re.findall(r"(\d+)(?: to (\d+))?", more[1].split(" and ")[0]):
                pages += range(int(run[0]), int(run[1] or run[0]) + 1)
    return pages


KINDS = ("an interior page of a table", "a leaf of a table", "an interior page of an index", "a leaf of an index")


def with_roots(shop, explained):
    """Gives each table whose root page may be wrong one of the pages that nothing refers to: the one that leaves the fewest faults, if
    these are fewer than before."""
    for names in wrong_roots(explained):
        kept = shop.copy.read_bytes()
        tried = [(*faults_of(shop), 0, kept)]
        for kind in KINDS:
            for root in pages_like(explained, kind)[:8]:
                for table in dict.fromkeys(names):
                    shop.copy.write_bytes(kept)
                    shop.run("The root page", table=table, root=str(root))
                    tried.append((*faults_of(shop), len(tried), shop.copy.read_bytes()))
        shop.copy.write_bytes(min(tried)[3])


def faults_of(shop):
    """How many faults the copy has, and whether it is not sound to SQLite."""
    count = re.search(r"^(\d+) faults?$", shop.explain()[0], re.M)
    return (int(count[1]) if count else 0), bool(count) or not result_of(shop.folder, shop.copy, []).sound


def with_header(shop, explained):
    """Puts the right bytes into the header."""
    lines = [line for line in shop.recipes["The header"].splitlines() if f"{line[-3:]} page 1 " in explained]
    shop.run("\n".join(lines).replace(r"\0\1", rf"\0\{shop.encoding}"))


def chosen(shop, damage):
    """Repairs the copy in the shop as docs/REPAIR.md leads to, and gives the steps and the file that is the result."""
    if shop.mend() and result_of(shop.folder, shop.copy, []).sound:
        return ["mend"], shop.copy
    shop.begin(damage)
    steps = []
    while True:
        explained, status = shop.explain()
        recipe = recipe_of(explained, status, steps)
        steps.append(recipe)
        if recipe == "Page 1":
            shop.run(recipe, size=str(damage.page_size))
        elif recipe == "The header":
            with_header(shop, explained)
        elif recipe == "The root page":
            with_roots(shop, explained)
        else:
            break
    if recipe == "Nothing":
        if result_of(shop.folder, shop.copy, []).sound:
            return steps, shop.copy
        steps.append(".dump")
    # Where a recipe prints an error, or makes a file that is not sound to SQLite, the next is taken.
    while steps[-1] != "Both ways" and (shop.run(steps[-1]) or not result_of(shop.folder, shop.new, []).sound):
        shop.new.unlink(missing_ok=True)
        steps.append(".dump" if steps[-1] == "VACUUM INTO" else "Both ways")
    if steps[-1] == "Both ways":
        if not shop.recovers:
            return steps, None
        shop.run("Both ways")
    return steps, shop.new


PLAIN = ("VACUUM INTO", ".dump", ".dump and sed", ".recover", "Both ways")
FEW = 20
FEW_SHAPES = ("rowid-512", "without-rowid-512", "incremental-1024", "full-vacuum-512", "repeated-512", "generated-512")
Damage = collections.namedtuple("Damage", "kind name file page_size encoding schema tables before")


class Ward:
    """A sound database of a shape, and injuries of it."""

    def __init__(self, dbck, folder, shape):
        self.folder, self.shape = folder, shape
        self.page_size, self.schema = injuries.SHAPES[shape][0], injuries.schema(shape)
        sound = folder / f"{shape}.db"
        self.before, self.data = injuries.made(sound, shape)
        self.stat = subprocess.run([dbck, "stat", "--all", sound], capture_output=True, text=True, check=True).stdout
        self.tables = tables_of(sound)

    def damage(self, kind, copy):
        """An injury, in its file; none where the database has no place for it."""
        patient = injuries.Patient(self.data, self.before, self.stat, f"{self.shape}-{kind}-{copy}")
        if injuries.INJURIES[kind](patient) or patient.data == self.data:
            return None
        file = self.folder / f"{self.shape}-{kind.replace(' ', '-')}-{copy}.db"
        file.write_bytes(patient.data)
        return Damage(kind, file.stem, file, self.page_size, self.data[59], self.schema, self.tables, self.data)


def damages(dbck, folder, copies, shape):
    """So many injuries of each class, of a shape."""
    ward = Ward(dbck, folder, shape)
    for kind in injuries.INJURIES:
        yield from filter(None, (ward.damage(kind, copy) for copy in range(copies)))


def few(dbck, folder):
    """Injuries of all classes in turn, of some small databases."""
    wards = [Ward(dbck, folder, shape) for shape in FEW_SHAPES]
    for turn in range(3 * len(wards)):
        for place, kind in enumerate(injuries.INJURIES):
            damage = wards[(place + turn) % len(wards)].damage(kind, turn)
            if damage:
                yield damage


Outcome = collections.namedtuple("Outcome", "name kind steps results lost invented same unsound", defaults=(False, False))


def repaired(shop, damage):
    """What comes of an injury: the steps that are chosen, the result of each recipe, and of these steps as `chosen`; no results where
    they cannot be run. Of the copy, as it is behind the steps before the last recipe, what each command reads counts too."""
    shop.begin(damage)
    steps, file = chosen(shop, damage)
    if file is None:
        return Outcome(damage.name, damage.kind, steps, {}, {}, 0)
    results = {"chosen": result_of(shop.folder, file, damage.tables)}
    later = [read_of(shop.copy, damage.tables)]
    if (shop.folder / "replaced.db").exists():
        # What .recover reads, also of tables at which the recipe of that name ends.
        later.append(result_of(shop.folder, shop.folder / "replaced.db", damage.tables))
    if steps[0] in ("Page 1", "The header", "The root page"):
        for recipe in shop.plain:
            shop.again()
            shop.run(recipe)
            later.append(result_of(shop.folder, shop.new, damage.tables))
    for recipe in shop.plain:
        shop.begin(damage)
        shop.run(recipe)
        results[recipe] = result_of(shop.folder, shop.new, damage.tables)
    same, unsound = with_mend(shop, damage, results)
    later.append(read_of(damage.file, damage.tables))
    readers = [result for recipe, result in results.items() if recipe not in ("chosen", "Both ways", "mend")]
    made = invented(results["chosen"], readers + later)
    return Outcome(damage.name, damage.kind, steps, results, losses(results, later, damage.tables), made, same, unsound)


def with_mend(shop, damage, results):
    """Has `mend` among the results, where it ends with ok. Gives whether the copy is then as before the injury, and whether it has a fault."""
    shop.begin(damage)
    if not shop.mend():
        return False, False
    results["mend"] = result_of(shop.folder, shop.copy, damage.tables)
    return shop.copy.read_bytes() == damage.before, shop.explain()[0] != "ok\n"


def losses(results, later, tables):
    """How many rows each recipe loses, of those that some recipe gets back."""
    readable = {table.name: Counter() for table in tables}
    for result in [*results.values(), *later]:
        for name in readable:
            readable[name] |= result.there[name] + result.lost[name]
    return {
        recipe: sum((readable[name] - result.there[name] - result.lost[name]).total() for name in readable) for recipe, result in results.items()
    }


def invented(result, readers):
    """How many wrong rows of a result none of the readers has, so that the recipe made them: the others are in the damaged file."""
    return sum(
        (rows - functools.reduce(lambda all, reader: all | reader.wrong[name], readers, Counter())).total() for name, rows in result.wrong.items()
    )


class Sums:
    """What a recipe did in several injuries."""

    def __init__(self):
        self.injuries = self.whole = self.lost = self.sound = self.wrong = self.elsewhere = self.same = 0

    def add(self, lost, result, same):
        self.injuries += 1
        self.same += same
        self.whole += lost == 0
        self.lost += lost
        self.sound += result.sound
        self.wrong += sum(rows.total() for rows in result.wrong.values())
        self.elsewhere += sum(rows.total() for rows in result.lost.values())

    def __str__(self):
        return f"{self.whole}/{self.lost}/{self.sound}" if self.injuries else ""


def table(head, lines):
    print("| " + " | ".join(head) + " |")
    print("|---" * len(head) + "|")
    for line in lines:
        print("| " + " | ".join(map(str, line)) + " |")
    print()


def report(of_class, of_steps, of_recipe):
    """The four tables of docs/REPAIR.md."""
    head = ["Damage", "Files", "sound by mend", "byte for byte as before", "sound to SQLite", "Rows lost", "Rows wrong"]
    mended = [(kind, by["chosen"].injuries, by["mend"]) for kind, by in [*of_class.items(), ("all", of_recipe)]]
    table(head, [[kind, files, by.injuries, by.same, by.sound, by.lost, by.wrong] for kind, files, by in mended])
    columns = [recipe for recipe in (*PLAIN, "chosen") if recipe in of_recipe]
    lines = [[kind, by["chosen"].injuries] + [by[recipe] for recipe in columns] for kind, by in of_class.items()]
    lines.append(["all", of_recipe["chosen"].injuries] + [of_recipe[recipe] for recipe in columns])
    table(["Damage", "Files", *columns], lines)
    table(["Recipe", "Rows lost", "Rows wrong", "Rows elsewhere"], [[recipe, by.lost, by.wrong, by.elsewhere] for recipe, by in of_recipe.items()])
    table(["Chosen", "Files", *columns], [[steps, by["chosen"].injuries] + [by[recipe] for recipe in columns] for steps, by in sorted(of_steps.items())])


def outcomes(dbck, folder, shape, copies):
    """The outcomes of one shape, or of the first few injuries of all."""
    shop = Workshop(dbck, folder, shape or "few")
    found = (repaired(shop, damage) for damage in (damages(dbck, folder, copies, shape) if shape else few(dbck, folder)))
    if shape:
        return list(found)
    compared = []
    for outcome in found:
        compared.append(outcome)
        if sum(bool(it.results) for it in compared) == FEW:
            break
    return compared


def main():
    words = argparse.ArgumentParser(description="Injures databases, and repairs them as docs/REPAIR.md says.")
    words.add_argument("--few", action="store_true", help=f"{FEW} injuries of small databases")
    words.add_argument("--copies", type=int, default=2, metavar="N", help="injuries of each class and database (2)")
    words.add_argument("--shape", action="append", metavar="NAME", help="of this database only; may be repeated")
    words.add_argument("--processes", type=int, default=1, metavar="N", help="so many databases at a time (1)")
    words.add_argument("--list", type=pathlib.Path, metavar="FILE", help="a line for each injury and recipe")
    words.add_argument("dbck", type=pathlib.Path, metavar="DBCK")
    words.add_argument("folder", type=pathlib.Path, metavar="FOLDER")
    given = words.parse_args()
    folder = given.folder.resolve()
    folder.mkdir(parents=True, exist_ok=True)
    one = functools.partial(outcomes, given.dbck.resolve(), folder, copies=given.copies)
    sums = collections.defaultdict(lambda: collections.defaultdict(Sums))
    failed = left_out = 0
    with open(given.list or os.devnull, "w") as listed, concurrent.futures.ProcessPoolExecutor(given.processes) as pool:
        for outcome in (it for found in pool.map(one, [None] if given.few else given.shape or injuries.SHAPES) for it in found):
            steps = ", ".join(outcome.steps)
            left_out += not outcome.results
            for recipe, result in outcome.results.items():
                for group in ("class", outcome.kind), ("steps", steps), ("all", "all"):
                    sums[group][recipe].add(outcome.lost[recipe], result, outcome.same)
                wrong = sum(rows.total() for rows in result.wrong.values())
                made = outcome.invented if recipe == "chosen" else ""
                print(outcome.name, steps, recipe, outcome.lost[recipe], wrong, made, result.sound, sep="\t", file=listed, flush=True)
            for what, count in ("loses", outcome.lost.get("chosen")), ("invents", outcome.invented):
                if count:
                    failed += 1
                    print(f"{outcome.name}: {steps} {what} {count} rows")
            if outcome.unsound:
                failed += 1
                print(f"{outcome.name}: mend says ok, and the changed copy has faults")
    report({kind: by for (group, kind), by in sums.items() if group == "class"}, {s: by for (g, s), by in sums.items() if g == "steps"}, sums["all", "all"])
    if left_out:
        print(f"left out: {left_out} injuries of which the recipe needs a sqlite3 with .recover (SQLITE_RECOVER)")
    sys.exit(1 if failed else 0)


if __name__ == "__main__":
    main()
