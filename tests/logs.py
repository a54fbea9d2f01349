#!/usr/bin/env python3
"""SQLite's two logs: what `dbck --recovered` reports beside them, and their definitions, beside SQLite itself.

    tests/logs.py DBCK FOLDER [PAIRS [SEED]]

Makes PAIRS pairs of a database and a log (500 if it is not said) in FOLDER, whole and damaged. SQLite recovers a copy of each; the
definitions of `dblog`, written here once more from SQLite's document on its file format (sections 3 and 4), have to give the same bytes.
The program has to print of the pair, with `--recovered`, what it prints of the recovered file, and end so; and the pair has to be as it
was. Some pairs are of a transaction over two databases: their journals name a super-journal, and are not rolled back where that is gone.
"""

import os
import random
import shutil
import signal
import sqlite3
import subprocess
import sys
import threading

WAL_MAGIC = (0x377F0682, 0x377F0683)
JOURNAL_MAGIC = bytes.fromhex("d9d505f920a163d7")
VERSION = 3007000


def u32(data, at):
    return int.from_bytes(data[at : at + 4], "big")


def is_power(n, least, most):
    return least <= n <= most and n & (n - 1) == 0


# ---- the write-ahead log (section 4)


def sums(order, start, data):
    """The two sums of these bytes, going on from a start (4.2)."""
    a, b = start
    for at in range(0, len(data), 8):
        x = int.from_bytes(data[at : at + 4], order)
        y = int.from_bytes(data[at + 4 : at + 8], order)
        a = (a + x + b) & 0xFFFFFFFF
        b = (b + y + a) & 0xFFFFFFFF
    return a, b


def stated(data, at):
    return u32(data, at), u32(data, at + 4)


def order_of(wal):
    return "big" if u32(wal, 0) == WAL_MAGIC[1] else "little"


def is_log(wal):
    """Whether a file is a write-ahead log: its header is whole, and has the magic, a page size and its sums."""
    return (
        len(wal) >= 32
        and u32(wal, 0) in WAL_MAGIC
        and is_power(u32(wal, 8), 512, 65536)
        and sums(order_of(wal), (0, 0), wal[:24]) == stated(wal, 24)
    )


def valid_frames(wal):
    """The frames before the first that is not valid."""
    size = u32(wal, 8)
    before = stated(wal, 24)
    frames = []
    for at in range(32, len(wal) - size - 23, size + 24):
        frame = wal[at : at + size + 24]
        before = sums(order_of(wal), sums(order_of(wal), before, frame[:8]), frame[24:])
        if u32(frame, 0) == 0 or frame[8:16] != wal[16:24] or before != stated(frame, 16):
            break
        frames.append(frame)
    return frames


def used_frames(wal):
    """The valid frames up to the last that commits; none of a file that is no log."""
    frames = valid_frames(wal) if is_log(wal) else []
    commits = [k for k, frame in enumerate(frames) if u32(frame, 4)]
    return frames[: commits[-1] + 1] if commits else []


def after_wal(db, wal):
    """The file that the log makes of the database, or None where SQLite does not open it."""
    if db and is_log(wal) and u32(wal, 4) != VERSION:
        return None
    frames = used_frames(wal) if db else []
    if not frames:
        return db
    size = u32(wal, 8)
    length = u32(frames[-1], 4) * size
    out = bytearray(db[:length].ljust(length, b"\0"))
    for frame in frames:
        at = (u32(frame, 0) - 1) * size
        if at < length:
            out[at : at + size] = frame[24:]
    return bytes(out)


# ---- the rollback journal (section 3)


def stored_size(db):
    size = int.from_bytes(db[16:18], "big")
    return 65536 if size == 1 else size


def is_record(journal, at, nonce, size, pages):
    page = journal[at + 4 : at + 4 + size]
    total = nonce + sum(page[k] for k in range(size - 200, 0, -200))
    lock = 0x40000000 // size + 1
    return u32(journal, at) not in (0, lock) and (u32(journal, at) > pages or total & 0xFFFFFFFF == u32(journal, at + 4 + size))


def names_super(journal):
    """Whether a journal ends in the name of a super-journal, as SQLite writes it: the name, its length, its sum, the magic."""
    size = u32(journal, len(journal) - 16) if len(journal) >= 16 else 0
    if not 0 < size <= min(512, len(journal) - 16) or journal[-8:] != JOURNAL_MAGIC:
        return False
    name = journal[len(journal) - 16 - size : len(journal) - 16]
    total = sum(letter - 256 * (letter > 127) for letter in name)
    return name[0] > 0 and total & 0xFFFFFFFF == u32(journal, len(journal) - 12)


def has_shape(db, journal):
    """Whether the sizes that the first head of a journal states can be."""
    sector, size = u32(journal, 20), u32(journal, 24) or stored_size(db)
    return is_power(size, 512, 65536) and is_power(sector, 32, 65536) and sector <= len(journal)


def journal_shape(db, journal):
    """The sizes of a sector and of a page, and the pages that the database had; or None where the journal is not rolled back."""
    if not db or len(journal) < 512 or journal[:8] != JOURNAL_MAGIC or names_super(journal) or not has_shape(db, journal):
        return None
    return u32(journal, 20), u32(journal, 24) or stored_size(db), u32(journal, 16)


def used_records(db, journal):
    """The pages that a journal that is rolled back gives, each with its bytes, in their order."""
    sector, size, pages = journal_shape(db, journal)
    records, at = [], 0
    while at + sector <= len(journal) and journal[at : at + 8] == JOURNAL_MAGIC:
        count, nonce = (u32(journal, at + k) for k in (8, 12))
        if count == 0xFFFFFFFF:
            count = (len(journal) - sector) // (size + 8)
        at += sector
        for _ in range(count):
            if at + size + 8 > len(journal) or not is_record(journal, at, nonce, size, pages):
                return records
            records.append((u32(journal, at), journal[at + 4 : at + 4 + size]))
            at += size + 8
        at = -(-at // sector) * sector
    return records


def after_journal(db, journal):
    """The file that the journal makes of the database."""
    shape = journal_shape(db, journal)
    if shape is None:
        return db
    _, size, pages = shape
    out = bytearray(db[: pages * size].ljust(pages * size, b"\0"))
    for page, data in used_records(db, journal):
        if page <= pages:
            out[(page - 1) * size : page * size] = data
    return bytes(out)


# ---- pairs


def connect(path):
    return sqlite3.connect(path, isolation_level=None, timeout=1)


def change(db, rnd):
    kind = rnd.randrange(5)
    if kind == 0:
        db.execute("DELETE FROM t WHERE id % ? = 0", (rnd.randrange(2, 6),))
    elif kind == 1:
        db.execute("UPDATE t SET b = ? WHERE id % 3 = ?", (os.urandom(rnd.randrange(900)), rnd.randrange(3)))
    else:
        for _ in range(rnd.randrange(1, 30)):
            db.execute("INSERT INTO t(a, b) VALUES (?, ?)", (str(rnd.random()), os.urandom(rnd.randrange(1500))))


def begun(path, rnd, mode):
    """A database of some rows, open in this mode."""
    db = connect(path)
    db.execute("PRAGMA page_size = %d" % rnd.choice((512, 512, 1024, 4096, 4096, 65536)))
    db.execute("PRAGMA auto_vacuum = %d" % rnd.randrange(3))
    db.execute("CREATE TABLE t(id INTEGER PRIMARY KEY, a TEXT, b BLOB)")
    db.execute("CREATE INDEX i ON t(a)")
    change(db, rnd)
    db.execute("PRAGMA journal_mode = " + mode)
    return db


def transactions(db, rnd, most):
    for _ in range(rnd.randrange(1, most)):
        db.execute("BEGIN")
        change(db, rnd)
        db.execute("ROLLBACK" if rnd.random() < 0.2 else "COMMIT")


def kept(path, suffix, folder):
    """A pair as a writer that stops now would leave it."""
    shutil.copy(path, folder + "/kept")
    if os.path.exists(path + suffix):
        shutil.copy(path + suffix, folder + "/kept" + suffix)
    else:
        open(folder + "/kept" + suffix, "wb").close()


def wal_pair(folder, rnd):
    path = folder + "/made"
    db = begun(path, rnd, "WAL")
    db.execute("PRAGMA wal_autocheckpoint = 0")
    db.execute("PRAGMA cache_size = 5")
    transactions(db, rnd, 6)
    if rnd.random() < 0.5:
        db.execute("PRAGMA wal_checkpoint(%s)" % rnd.choice(("PASSIVE", "FULL", "RESTART")))
        transactions(db, rnd, 4)
    if rnd.random() < 0.2:
        db.execute("DELETE FROM t WHERE id > 3")
        db.execute("VACUUM")
    if rnd.random() < 0.4:
        db.execute("BEGIN")
        for _ in range(4):
            change(db, rnd)
    kept(path, "-wal", folder)
    db.close()


def journal_pair(folder, rnd):
    kind = rnd.random()
    if kind < 0.1:
        return shared_pair(folder, rnd)
    return hot_pair(folder, rnd, kind < 0.2)


def hot_pair(folder, rnd, is_cold=False):
    """A pair in a transaction, or after it."""
    path = folder + "/made"
    db = begun(path, rnd, rnd.choice(("DELETE", "PERSIST", "TRUNCATE")))
    db.execute("PRAGMA synchronous = %s" % rnd.choice(("FULL", "NORMAL", "OFF")))
    transactions(db, rnd, 4)
    db.execute("PRAGMA cache_size = 5")
    db.execute("PRAGMA cache_spill = 1")
    if is_cold:
        kept(path, "-journal", folder)
        return db.close()
    db.execute("BEGIN")
    for _ in range(rnd.randrange(2, 8)):
        change(db, rnd)
    kept(path, "-journal", folder)
    return db.close()


def shared_pair(folder, rnd):
    """A pair that a writer left that was killed as it committed a transaction over two databases; its super-journal is gone."""
    path = folder + "/made"
    begun(path, rnd, "DELETE").close()
    begun(folder + "/other", rnd, "DELETE").close()
    child = os.fork()
    if child == 0:
        db = connect(path)
        db.execute("ATTACH ? AS other", (folder + "/other",))
        db.execute("PRAGMA synchronous = FULL")
        db.execute("BEGIN")
        change(db, rnd)
        db.execute("UPDATE other.t SET a = 'x'")
        db.execute("INSERT INTO other.t(a) VALUES ('y')")
        threading.Thread(target=kill_when, args=(path + "-journal",), daemon=True).start()
        db.execute("COMMIT")
        os.kill(os.getpid(), signal.SIGKILL)
    os.waitpid(child, 0)
    kept(path, "-journal", folder)
    for name in os.listdir(folder):
        if "-mj" in name:
            os.remove(os.path.join(folder, name))


def kill_when(journal):
    """Ends this process as soon as a journal names a super-journal."""
    while True:
        try:
            with open(journal, "rb") as data:
                if names_super(data.read()):
                    os.kill(os.getpid(), signal.SIGKILL)
        except OSError:
            pass


def with_other_order(wal):
    """The same log with sums of the other byte order."""
    if not is_log(wal):
        return wal
    out = bytearray(wal)
    out[3] ^= 1
    order = order_of(out)
    before = sums(order, (0, 0), out[:24])
    out[24:32] = b"".join(n.to_bytes(4, "big") for n in before)
    size = u32(wal, 8) + 24
    for k in range(len(valid_frames(wal))):
        at = 32 + k * size
        before = sums(order, sums(order, before, out[at : at + 8]), out[at + 24 : at + size])
        out[at + 16 : at + 24] = b"".join(n.to_bytes(4, "big") for n in before)
    return bytes(out)


def with_header(wal, at, number):
    """A log whose header has another number at a place, and the sums of that."""
    out = bytearray(wal)
    out[at : at + 4] = number.to_bytes(4, "big")
    out[24:32] = b"".join(n.to_bytes(4, "big") for n in sums(order_of(out), (0, 0), out[:24]))
    return bytes(out)


def damaged(log, rnd, is_wal):
    """The log as it is, or damaged in one way; and the name of the way."""
    ways = ["whole", "whole", "cut", "bit", "head bit", "frame bit", "longer"] + ["order", "salt", "version", "size"] * is_wal
    way = rnd.choice(ways) if log else "whole"
    data = bytearray(log)
    if way == "cut":
        data = data[: rnd.randrange(len(data))]
    elif way == "bit":
        data[rnd.randrange(len(data))] ^= 1 << rnd.randrange(8)
    elif way == "head bit":
        data[rnd.randrange(min(len(data), 32))] ^= 1 << rnd.randrange(8)
    elif way == "frame bit":
        data[min(len(data) - 1, 32 + rnd.randrange(24))] ^= 1 << rnd.randrange(8)
    elif way == "longer":
        data += os.urandom(rnd.randrange(9000))
    elif way == "order":
        data = with_other_order(bytes(data))
    elif way == "salt":
        data[16 + rnd.randrange(8)] ^= 1
        data = with_header(data, 12, 7)
    elif way == "version":
        data = with_header(data, 4, VERSION + 1)
    elif way == "size":
        data = with_header(data, 8, rnd.choice((0, 256, 512, 1000, 4096, 131072)))
    return bytes(data), way


def is_vast(journal):
    """Whether a journal states a database that is too long to be written here."""
    return len(journal) >= 28 and u32(journal, 16) * max(u32(journal, 24), 4096) > 1 << 28


def by_sqlite(folder, db, log, suffix):
    """The database after SQLite opened it beside this log, or None where it does not open it."""
    path = folder + "/copy"
    for name in ("", "-wal", "-journal", "-shm"):
        if os.path.exists(path + name):
            os.remove(path + name)
    with open(path, "wb") as out:
        out.write(db)
    with open(path + suffix, "wb") as out:
        out.write(log)
    con = connect(path)
    try:
        con.execute("SELECT count(*) FROM sqlite_schema").fetchone()
        con.execute("PRAGMA wal_checkpoint(TRUNCATE)").fetchone()
    except sqlite3.DatabaseError as error:
        if "malformed" not in str(error):
            return None
    finally:
        con.close()
    with open(path, "rb") as recovered:
        return recovered.read()


COMMANDS = (["check"], ["check", "--limit", "3"], ["stat", "--all"], ["stat", "--aggregate"], ["explain"])
UNFIT = b"dbck: E11 the log does not fit the database\n"


def ran(dbck, words):
    done = subprocess.run([dbck] + words, stdout=subprocess.PIPE, stderr=subprocess.PIPE, check=False, timeout=60)
    lines = done.stderr.splitlines(keepends=True)
    return done.returncode, done.stdout, b"".join(line for line in lines if not line.startswith(b"dbck: note: "))


def counted(n, one, more):
    return "%d %s" % (n, one if n == 1 else more)


def wal_notes(db, wal):
    """What the notes say of a write-ahead log, after its name."""
    if not is_log(wal):
        return [" holds nothing that SQLite would read"]
    if u32(wal, 4) != VERSION:
        return [" has a version that SQLite does not open"]
    valid, used, size = valid_frames(wal), used_frames(wal), u32(wal, 8) + 24
    said = [" holds nothing that SQLite would read"]
    if used and db:
        given = {u32(frame, 0) for frame in used if u32(frame, 0) <= u32(used[-1], 4)}
        of = counted(sum(u32(frame, 4) > 0 for frame in used), "transaction", "transactions")
        said = [": %s of %s %s read from it" % (counted(len(given), "page", "pages"), of, "is" if len(given) == 1 else "are")]
    left = len(valid) - len(used)
    if left:
        said.append(": %s of a transaction that was not committed %s left out" % (counted(left, "frame", "frames"), "is" if left == 1 else "are"))
    broken = 32 + size * len(valid)
    if broken < len(wal):
        later = sum(wal[at + 8 : at + 16] == wal[16:24] for at in range(broken + size, len(wal) - size + 1, size))
        have = "frame after it has the log's salts, and is" if later == 1 else "frames after it have the log's salts, and are"
        said.append(": frame %d is not valid, at byte %d; %d %s left out" % (len(valid) + 1, broken, later, have))
    return said


def journal_notes(db, journal):
    """What the note says of a rollback journal, after its name; the super-journal that it names is not there."""
    if len(journal) < 512:
        return [" has fewer than 512 bytes, and is not rolled back: ask for all of it"]
    if journal[0] == 0:
        return [" begins with 0, and is not rolled back: SQLite does not need it"]
    if journal[:8] != JOURNAL_MAGIC:
        return [" does not begin as a journal does, and is not rolled back: ask for it again"]
    if not has_shape(db, journal):
        return [" states a size of a page or sector that cannot be, and is not rolled back: ask for it again"]
    if names_super(journal):
        name = journal[len(journal) - 16 - u32(journal, len(journal) - 16) : len(journal) - 16].decode()
        return [" names the super-journal %s, which is not here, and is not rolled back (see the manual)" % name]
    if not db:
        return [" holds nothing that SQLite would read"]
    had = u32(journal, 16)
    given = {page for page, _ in used_records(db, journal) if page <= had}
    read = "%s read from it" % counted(len(given), "page is", "pages are")
    return [": %s; the database had %s" % (read, counted(had, "page", "pages"))]


def noted(dbck, pair, suffix):
    """The notes of a run on the log of a pair, after its name."""
    done = subprocess.run([dbck, "check", "--recovered", pair], stdout=subprocess.PIPE, stderr=subprocess.PIPE, check=False, timeout=60)
    named = "dbck: note: " + pair + suffix
    return [line[len(named) :] for line in done.stderr.decode(errors="replace").splitlines() if line.startswith(named)]


def put(path, data):
    with open(path, "wb") as out:
        out.write(data)


def seen(paths):
    """The bytes of these files, and when they were written."""
    found = []
    for path in paths:
        with open(path, "rb") as data:
            found.append((data.read(), os.stat(path).st_mtime_ns))
    return found


def reports(dbck, folder, db, log, suffix, recovered):
    """What the program says of the pair that it does not say of the recovered file; None is that the log does not fit."""
    pair, whole = folder + "/pair", folder + "/whole"
    put(pair, db)
    put(pair + suffix, log)
    put(whole, recovered or b"")
    before = seen((pair, pair + suffix))
    wrong = []
    for command in COMMANDS:
        got = ran(dbck, command + ["--recovered", pair])
        wanted = (3, b"", UNFIT) if recovered is None else ran(dbck, command + [whole])
        if got != wanted:
            wrong.append("%s: status %d, and not %d" % (" ".join(command), got[0], wanted[0]))
    said = (wal_notes if suffix == "-wal" else journal_notes)(db, log) if log else []
    if noted(dbck, pair, suffix) != said:
        wrong.append("the notes are not %s" % said)
    if seen((pair, pair + suffix)) != before:
        wrong.append("the pair was changed")
    return wrong


def fits(size, recovered):
    """Whether the recovered file states the page size of the log, or is refused."""
    stated = stored_size(recovered)
    usable = stated - (recovered[20] if len(recovered) > 20 else 0)
    is_database = recovered[:16] == b"SQLite format 3\0" and is_power(stated, 512, 65536) and usable >= 480
    return len(recovered) < max(100, stated) or not is_database or stated == size


def is_fit(db, log, is_wal, recovered):
    """Whether the program is to report of the pair: SQLite opens the log, and its pages have the size that the recovered file states."""
    if is_wal:
        known = not is_log(log) or u32(log, 4) == VERSION
        return known and (not used_frames(log) or not db or fits(u32(log, 8), recovered))
    shape = journal_shape(db, log)
    return shape is None or fits(shape[1], recovered)


def killed_pair(folder, rnd):
    """A pair that a writer left that was killed."""
    path = folder + "/made"
    begun(path, rnd, "WAL").close()
    child = os.fork()
    if child == 0:
        db = connect(path)
        db.execute("PRAGMA journal_mode = WAL")
        db.execute("PRAGMA wal_autocheckpoint = %d" % rnd.choice((0, 3, 20)))
        db.execute("PRAGMA cache_size = 5")
        transactions(db, rnd, 6)
        db.execute("BEGIN")
        for _ in range(rnd.randrange(5)):
            change(db, rnd)
        os.kill(os.getpid(), signal.SIGKILL)
    os.waitpid(child, 0)
    kept(path, "-wal", folder)


def run(dbck, folder, pairs, seed):
    rnd = random.Random(seed)
    wrong, counts = 0, {}
    for number in range(pairs):
        shutil.rmtree(folder, ignore_errors=True)
        os.makedirs(folder)
        is_wal = rnd.random() < 0.6
        suffix = "-wal" if is_wal else "-journal"
        maker = (killed_pair if rnd.random() < 0.2 else wal_pair) if is_wal else journal_pair
        maker(folder, rnd)
        with open(folder + "/kept", "rb") as kept_db, open(folder + "/kept" + suffix, "rb") as kept_log:
            db, log = kept_db.read(), kept_log.read()
        log, way = damaged(log, rnd, is_wal)
        if rnd.random() < 0.03:
            db = b""
        if not is_wal and is_vast(log):
            log = b""
        ours = (after_wal if is_wal else after_journal)(db, log)
        theirs = by_sqlite(folder, db, log, suffix)
        opened = "opens" if theirs is not None else "does not open"
        moved = "as it was" if ours == db else "changed"
        counts[(suffix, way, opened, moved)] = counts.get((suffix, way, opened, moved), 0) + 1
        if theirs is not None and ours != theirs:
            wrong += 1
            print("pair %d: %s, %s: %s bytes, by SQLite %d" % (number, suffix, way, ours and len(ours), len(theirs)))
        said = reports(dbck, folder, db, log, suffix, ours if ours is not None and is_fit(db, log, is_wal, ours) else None)
        wrong += bool(said)
        for line in said:
            print("pair %d: %s, %s: %s" % (number, suffix, way, line))
    for key in sorted(counts):
        print("%5d  %s" % (counts[key], ", ".join(key)))
    print("%d pairs, %d differ" % (pairs, wrong))
    return 1 if wrong else 0


if __name__ == "__main__":
    if len(sys.argv) < 3:
        sys.exit(__doc__)
    sys.exit(run(*sys.argv[1:3], *(int(word) for word in (sys.argv[3:5] + ["500", "1"][len(sys.argv) - 3 :])[:2])))
