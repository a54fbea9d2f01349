#!/usr/bin/env python3
"""Overwrites numbers of databases, and looks whether `dbck mend` puts them back: overwritten.py DBCK FOLDER.

The databases are made in FOLDER. With the changes that `mend` prints a copy has to be as it was, byte for byte, and the last line has to be
`ok`, or the status is 1. Of each copy that is not, a line is printed.

Each line of NUMBERS is a number of a database, or several: the offset, its bytes, the number, and the one that is put over it. Most were
chosen among thousands that were overwritten by chance. Each condition and each number in the code of `mend` was changed, one at a time: of the
changes that any of those thousands tells, these few tell nearly all.

Then each kind of number of mend.py is overwritten COPIES times in each of these databases and of those of injuries.py, by a seed that is the
number of the copy, some are made a little more or less, and numbers of two and of four pages are overwritten. In databases of random histories
(histories.py) one number at a time is.
The copies of which overwritten.txt has a line need not be as they were: mend finds another number there, or none.
"""

import pathlib
import subprocess
import sys

import histories
import injuries
import mend


def up_to(count):
    """The beginning of a statement that takes the numbers n from 1 to count from k."""
    return f"WITH RECURSIVE k(n) AS (SELECT 1 UNION ALL SELECT n + 1 FROM k WHERE n < {count})"


LETTERS = "abcdefghijklmnopqrstuvwxyz"


def mixed(rows, size):
    """Trees of each kind, with rows that became shorter or were deleted, rows of up to 24 times SIZE bytes, and a root page that was freed."""
    return f"""
        CREATE TABLE t(id INTEGER PRIMARY KEY, a, b INT); CREATE INDEX i ON t(b);
        INSERT INTO t {up_to(rows)} SELECT n, 'text ' || n, n * 37 % 1009 FROM k;
        CREATE TABLE w(k INT PRIMARY KEY, v) WITHOUT ROWID;
        INSERT INTO w {up_to(rows)} SELECT n * 37 % 4001, n FROM k;
        CREATE TABLE o(x); INSERT INTO o {up_to(24)} SELECT zeroblob(n * {size}) FROM k;
        CREATE TABLE gone(a); CREATE TABLE last(q); DROP TABLE gone; INSERT INTO last VALUES (1);
        DELETE FROM t WHERE id % 9 = 4; DELETE FROM w WHERE k % 11 = 3;
        UPDATE t SET a = substr(a, 3) WHERE id % 11 = 3; DELETE FROM o WHERE rowid % 3 = 0;"""


def columns(count):
    """The names of so many columns."""
    return ",".join(f"c{column}" for column in range(count))


def thinned(rows, before=0):
    """A table and an index of which rows here and there, and then many side by side, were deleted, and few added. `before` comes before the
    first rowid."""
    return f"""BEGIN;
        CREATE TABLE t(id INTEGER PRIMARY KEY, a, b); CREATE INDEX i ON t(b);
        INSERT INTO t {up_to(rows)} SELECT n + {before}, printf('text %d', n), n * 37 % 211 FROM k;
        DELETE FROM t WHERE id % 9 = 4; UPDATE t SET a = substr(a, 3) WHERE id % 11 = 3;
        DELETE FROM t WHERE id - {before} BETWEEN {rows // 2} AND {rows * 2 // 3};
        INSERT INTO t {up_to(rows // 20)} SELECT NULL, 'new', n FROM k; COMMIT;"""


def altered(rows):
    """A table without rowids that got a column when it had rows."""
    return f"""BEGIN;
        CREATE TABLE w(k TEXT, m INT, v, PRIMARY KEY(m DESC, k)) WITHOUT ROWID;
        INSERT INTO w {up_to(rows)} SELECT 'k' || (n * 53 % 997), n % 11, n FROM k; ALTER TABLE w ADD COLUMN x DEFAULT 3;
        INSERT INTO w {up_to(rows)} SELECT 'z' || (n * 53 % 997), n % 7, n, n * 2 FROM k; COMMIT;"""


def freed(rows, size):
    """A table that had a row on each page, most of which were deleted, and one that was filled then."""
    return f"""BEGIN;
        CREATE TABLE t(a); INSERT INTO t {up_to(rows)} SELECT zeroblob({size - 60}) FROM k; CREATE TABLE u(x);
        DELETE FROM t WHERE rowid % 4 > 0; INSERT INTO u {up_to(rows)} SELECT n * n FROM k; COMMIT;"""


def long(size):
    """Rows of up to six pages, and keys of up to three, with an index of zeros."""
    return f"""BEGIN;
        CREATE TABLE t(a); INSERT INTO t {up_to(30)} SELECT zeroblob(n * {size} / 5) FROM k;
        CREATE TABLE w(k TEXT PRIMARY KEY, v) WITHOUT ROWID;
        INSERT INTO w {up_to(30)} SELECT printf('%03d', n * 17 % 31) || hex(zeroblob(n * {size} / 20)), n FROM k;
        CREATE INDEX i ON t(a); COMMIT;"""


def schema(tables, indexes=True):
    """A schema of so many tables, of which two were dropped, and one is new."""
    definition = "CREATE TABLE t{0}(a INTEGER PRIMARY KEY, b{0} TEXT UNIQUE, c);"
    if indexes:
        definition += " CREATE INDEX i{0} ON t{0}(c);"
    return f"""{' '.join(definition.format(n) for n in range(tables))}
        DROP TABLE t7; CREATE TABLE tx(y); DROP TABLE t20; INSERT INTO t3 VALUES (1, 2, 3);"""


def deep(size):
    """A tree of three levels: few keys fit into a page."""
    return f"""BEGIN;
        CREATE TABLE w(k TEXT PRIMARY KEY, v) WITHOUT ROWID;
        INSERT INTO w {up_to(90)} SELECT printf('%03d', n * 37 % 91) || hex(zeroblob({size} / 8 - 50 - n % 50)), n FROM k;
        DELETE FROM w WHERE v % 7 = 3; COMMIT;"""


def exchanged(rows):
    """Keys of many lengths, of which some are deleted, and others get their places: also on interior pages."""
    def added(rows, factor, step, letters):
        return f"""INSERT OR IGNORE INTO w {up_to(rows)}
            SELECT printf('%05d', n * {factor} % 10007) || substr('{LETTERS * 2}', 1, n * {step} % {letters}), n FROM k;"""
    return f"""BEGIN;
        CREATE TABLE w(k TEXT PRIMARY KEY, v) WITHOUT ROWID;
        {added(rows, 7919, 7, 50)} DELETE FROM w WHERE v % 3 = 1;
        {added(rows // 2, 6841, 11, 26)} DELETE FROM w WHERE v % 5 = 2;
        {added(rows // 2, 5449, 3, 26)} DELETE FROM w WHERE v % 7 = 2; COMMIT;"""


# The page size, how many bytes are reserved at the end of each page, and the statements.
DATABASES = {
    # Columns of an index that go different ways, in ordinary tables and in one without rowids.
    "ways": (512, 0, f"""
        CREATE TABLE t(a INT, b INT, c TEXT);
        INSERT INTO t {up_to(150)} SELECT n % 7, n * 37 % 101, 'v' || n FROM k;
        CREATE INDEX i ON t(a, b DESC);
        CREATE INDEX j ON t(c DESC, a);"""),
    "without-rowid": (512, 0, f"""
        CREATE TABLE w(a INT, b TEXT, c INT, PRIMARY KEY(a DESC, b)) WITHOUT ROWID;
        INSERT INTO w {up_to(140)} SELECT n % 9, 'k' || (n * 53 % 140), n FROM k;
        CREATE TABLE z(a INT);
        INSERT INTO z SELECT c FROM w;
        CREATE INDEX zi ON z(a);"""),
    # Texts: capital and small letters and the signs between them, and letters that are not of ASCII.
    "nocase": (512, 0, f"""
        CREATE TABLE t(a TEXT COLLATE NOCASE);
        CREATE INDEX i ON t(a);
        INSERT INTO t {up_to(160)} SELECT substr('Ab_cD^eF`gHiJ_k', n * 7 % 13 + 1, 3) ||
            CASE n % 3 WHEN 0 THEN '_' WHEN 1 THEN 'Z' ELSE 'a' END || n FROM k;"""),
    # The first forty keys of the index do not show it.
    "late-nocase": (4096, 0, f"""
        CREATE TABLE t(b TEXT COLLATE NOCASE);
        CREATE INDEX i ON t(b);
        INSERT INTO t {up_to(120)} SELECT iif(n > 40, iif(n % 2, 'name', 'Name'), 'code') || (1000 + n * 37 % 251) FROM k;"""),
    "signs": (512, 0, f"""
        CREATE TABLE t(a TEXT COLLATE NOCASE);
        INSERT INTO t {up_to(200)} SELECT substr('_a^B[c`D_E^f', 1 + n * 7 % 11, 1) || CASE n % 3 WHEN 0 THEN '_' WHEN 1 THEN 'q' ELSE 'Q' END ||
            (n * 37 % 211) FROM k;
        CREATE INDEX i ON t(a);
        CREATE INDEX j ON t(a DESC);"""),
    "utf-16": (512, 0, f"""
        PRAGMA encoding = 'UTF-16be';
        CREATE TABLE t(a TEXT);
        CREATE INDEX i ON t(a);
        INSERT INTO t {up_to(90)} SELECT CASE n % 3 WHEN 0 THEN 'é' WHEN 1 THEN 'z' ELSE 'Ω' END || n FROM k;
        CREATE TABLE w(a TEXT PRIMARY KEY, b) WITHOUT ROWID;
        INSERT INTO w SELECT a, rowid FROM t;"""),
    # Keys with overflow pages. Some are alike as far as they are on their page.
    "long-keys": (4096, 0, f"""
        CREATE TABLE t(a);
        CREATE INDEX i ON t(a);
        INSERT INTO t {up_to(30)} SELECT substr('{'b' * 6000}', 1, 900 + n * 40) || n FROM k;"""),
    "chains-of-keys": (512, 0, f"""
        CREATE TABLE w(a TEXT PRIMARY KEY, b) WITHOUT ROWID;
        INSERT INTO w {up_to(40)} SELECT printf('%03d', n * 17 % 41) || substr('{'p' * 700}', 1, n * 23 % 600), n FROM k;"""),
    "widths": (1024, 0, f"""
        CREATE TABLE t(a TEXT);
        INSERT INTO t {up_to(120)} SELECT printf('%03d', n * 37 % 127) || substr('{'q' * 160}', 1, n * 31 % 150) FROM k;
        CREATE INDEX i ON t(a);
        CREATE TABLE w(k TEXT PRIMARY KEY, v BLOB) WITHOUT ROWID;
        INSERT INTO w {up_to(90)} SELECT printf('%03d', n * 37 % 91), zeroblob(n * 29 % 140) FROM k;"""),
    # Values of several types, and numbers below 0.
    "types": (512, 0, f"""
        CREATE TABLE t(a);
        CREATE INDEX i ON t(a);
        INSERT INTO t {up_to(160)} SELECT CASE n % 5 WHEN 0 THEN NULL WHEN 1 THEN n WHEN 2 THEN 'x' || n WHEN 3 THEN CAST('x' || n AS BLOB)
            ELSE -n END FROM k;"""),
    "blobs": (512, 0, f"""
        CREATE TABLE t(a);
        INSERT INTO t {up_to(90)} SELECT printf('%03d', n) || 'abcd' FROM k;
        INSERT INTO t {up_to(90)} SELECT CAST(printf('%03d', n) || 'abcd' AS BLOB) FROM k;
        CREATE INDEX i ON t(a);
        CREATE INDEX j ON t(a DESC);"""),
    "negative": (512, 0, f"""
        CREATE TABLE t(a);
        CREATE INDEX i ON t(a);
        INSERT INTO t {up_to(200)} SELECT CASE n % 4 WHEN 0 THEN -n * 1000 WHEN 1 THEN -n * 1.5 WHEN 2 THEN n * 100000000000 ELSE n * 2.25 END FROM k;
        INSERT INTO t VALUES (NULL), (NULL), (0), (1), (-1), (1e300), (-1e300);"""),
    "lengths-of-integers": (512, 0, f"""
        CREATE TABLE t(a INT, b INT);
        INSERT INTO t {up_to(300)} SELECT CASE n % 4 WHEN 0 THEN -40000 - n * 50 WHEN 1 THEN 40000 + n * 50
            WHEN 2 THEN -20000000000 - n * 10000 ELSE 20000000000 + n * 10000 END, n FROM k;
        CREATE INDEX i ON t(a);
        CREATE INDEX j ON t(b % 3, a DESC);"""),
    # Records whose header has a size of two bytes.
    "columns": (512, 0, f"""
        CREATE TABLE t({columns(70)});
        INSERT INTO t(c0, c1, c69) {up_to(60)} SELECT n, n * 3, 'z' || n FROM k;
        CREATE TABLE w({','.join(f'c{column} INT NOT NULL DEFAULT 0' for column in range(140))}, PRIMARY KEY(c0, c1)) WITHOUT ROWID;
        INSERT INTO w(c0, c1, c139) {up_to(60)} SELECT n % 5, n, -n FROM k;"""),
    # Lengths of payloads about the least that take two bytes, and three.
    "lengths": (65536, 0, f"""
        CREATE TABLE t(a);
        INSERT INTO t {up_to(9)} SELECT zeroblob(120 + n) FROM k;
        INSERT INTO t {up_to(4)} SELECT zeroblob(16377 + n) FROM k;"""),
    "long-rows": (4096, 0, """
        CREATE TABLE t(a);
        INSERT INTO t VALUES (zeroblob(70000)), (zeroblob(80000));"""),
    # Pages of 65536 bytes, with 32 reserved bytes, of a freelist, with short rows, with freeblocks and fragments.
    "large-pages": (65536, 0, f"""
        CREATE TABLE t(a);
        INSERT INTO t {up_to(30)} SELECT zeroblob(n * 997) FROM k;
        CREATE TABLE e(a);
        CREATE TABLE x(a);
        CREATE INDEX i ON x(a);
        INSERT INTO x {up_to(50)} SELECT 'q' || n FROM k;
        DELETE FROM x WHERE rowid % 4 = 1;"""),
    "reserved": (512, 32, f"""
        CREATE TABLE t(a, b);
        INSERT INTO t {up_to(90)} SELECT n, 'text' || n FROM k;
        CREATE INDEX i ON t(b DESC);
        DELETE FROM t WHERE rowid % 7 = 3;
        CREATE TABLE o(x);
        INSERT INTO o {up_to(9)} SELECT zeroblob(700 * n) FROM k;"""),
    "vacuum": (512, 8, f"""
        PRAGMA auto_vacuum = 2;
        CREATE TABLE t(a);
        INSERT INTO t {up_to(300)} SELECT zeroblob(n * 31 % 900) FROM k;
        DELETE FROM t WHERE rowid % 3 = 0;
        CREATE TABLE u(x INTEGER PRIMARY KEY, y);
        INSERT INTO u {up_to(120)} SELECT n * 3, 'val' || n FROM k;"""),
    "freelist": (512, 0, f"""
        CREATE TABLE t(a);
        INSERT INTO t {up_to(330)} SELECT zeroblob(450) FROM k;
        CREATE TABLE u(a);
        INSERT INTO u {up_to(40)} SELECT 'x' || n FROM k;
        DELETE FROM t WHERE rowid > 20;"""),
    "reserved-freelist": (512, 24, f"""
        CREATE TABLE t(a);
        INSERT INTO t {up_to(330)} SELECT zeroblob(430) FROM k;
        CREATE TABLE u(a);
        INSERT INTO u {up_to(40)} SELECT 'x' || n FROM k;
        DELETE FROM t WHERE rowid > 20 AND rowid % 5 <> 0;"""),
    # A freelist of many trunks, one of a trunk with many leaves, and none.
    "trunks": (512, 0, f"""
        CREATE TABLE t(a);
        INSERT INTO t {up_to(2300)} SELECT zeroblob(450) FROM k;
        CREATE TABLE u(a);
        DELETE FROM t;"""),
    "leaves": (1024, 0, """
        CREATE TABLE t(a);
        INSERT INTO t VALUES (zeroblob(160000));
        CREATE TABLE u(a);
        DELETE FROM t;"""),
    "no-freelist": (4096, 0, """
        PRAGMA auto_vacuum = 1;
        CREATE TABLE t(a);
        INSERT INTO t VALUES (1);"""),
    # Keys that are alike as far as they are on their page, or end on overflow pages.
    "addresses": (512, 0, f"""
        CREATE TABLE t(u TEXT);
        CREATE INDEX i ON t(u);
        INSERT INTO t {up_to(60)} SELECT 'http://example.org/some/path/that/is/long/' || (n * 7919 % 997) || hex(zeroblob(n * 3)) FROM k;"""),
    "short-rows": (512, 0, f"""
        CREATE TABLE t(a);
        INSERT INTO t {up_to(300)} SELECT NULL FROM k;
        CREATE INDEX i ON t(a);
        CREATE TABLE v(a);
        INSERT INTO v {up_to(60)} SELECT 1 FROM k;
        DELETE FROM v WHERE rowid % 6 = 1;"""),
    "fragments": (1024, 0, f"""
        CREATE TABLE t(a INTEGER PRIMARY KEY, b);
        INSERT INTO t {up_to(150)} SELECT n, substr('{LETTERS}', 1, n * 7 % 26) FROM k;
        DELETE FROM t WHERE a % 5 = 2;
        INSERT INTO t {up_to(150)} SELECT n, substr('{LETTERS.upper()}', 1, n * 11 % 17) FROM k WHERE n % 10 = 2;"""),
    # Fragments side by side, before a freeblock.
    "shrunk": (1024, 0, f"""
        CREATE TABLE t(a INTEGER PRIMARY KEY, b);
        INSERT INTO t {up_to(40)} SELECT n, substr('{LETTERS}', n % 3) FROM k;
        UPDATE t SET b = substr(b, 4) WHERE a % 5 = 2;
        UPDATE t SET b = substr(b, 4) WHERE a % 5 = 2;
        DELETE FROM t WHERE a IN (9, 33);"""),
    # A fragment behind a freeblock, and one behind a cell.
    "updated": (512, 0, f"""
        CREATE TABLE t(a INTEGER PRIMARY KEY, b);
        INSERT INTO t {up_to(20)} SELECT n, 'the row ' || n FROM k;
        UPDATE t SET b = substr(b, 3) WHERE a IN (9, 14);
        DELETE FROM t WHERE a = 9;"""),
    "updated-twice": (512, 0, f"""
        CREATE TABLE t(a INTEGER PRIMARY KEY, b);
        INSERT INTO t {up_to(20)} SELECT n, 'the row ' || n FROM k;
        UPDATE t SET b = substr(b, 3) WHERE a = 14;
        UPDATE t SET b = substr(b, 3) WHERE a = 14;"""),
    # Fragments side by side, a freeblock, and short rows.
    "updated-and-deleted": (512, 0, f"""
        CREATE TABLE t(a INTEGER PRIMARY KEY, b);
        INSERT INTO t {up_to(11)} SELECT n, 'abcdefgh' FROM k;
        UPDATE t SET b = substr(b, 4) WHERE a = 5;
        UPDATE t SET b = substr(b, 4) WHERE a = 5;
        DELETE FROM t WHERE a = 7;"""),
    "tiny-rows": (512, 0, f"""
        CREATE TABLE t(a INTEGER PRIMARY KEY, b);
        INSERT INTO t {up_to(12)} SELECT n, iif(n = 6, 'abcdefgh', 'ab') FROM k;
        UPDATE t SET b = substr(b, 4) WHERE a = 6;
        UPDATE t SET b = substr(b, 4) WHERE a = 6;"""),
    "deleted": (512, 0, f"""
        CREATE TABLE t(a);
        INSERT INTO t {up_to(20)} SELECT 'row ' || n FROM k;
        DELETE FROM t WHERE rowid IN (5, 11);"""),
    # After the last pointer an old one, to free bytes before the content area that could be a cell.
    "old-pointer": (4096, 0, f"""
        CREATE TABLE t(a INTEGER PRIMARY KEY, b);
        INSERT INTO t {up_to(100)} SELECT n, 'abcdefghijklm' FROM k;
        DELETE FROM t WHERE a = 3;
        UPDATE t SET b = 'x' WHERE a = 100;"""),
    # Rows that became shorter. Two numbers of a head are overwritten.
    "cut-short": (1024, 0, f"""
        CREATE TABLE t(a INTEGER PRIMARY KEY, b, c, d);
        INSERT INTO t {up_to(100)} SELECT n, 'abc', n % 3, NULL FROM k;
        UPDATE t SET b = '' WHERE a % 7 = 4;"""),
    # An interior page of more than 400 children, below a root page.
    "many-leaves": (4096, 0, f"""
        CREATE TABLE t(a INTEGER PRIMARY KEY, b);
        INSERT INTO t {up_to(40000)} SELECT n, hex(zeroblob(40)) FROM k;"""),
    # More than 64 tables, all of them on one page of the schema.
    "many-tables": (4096, 0, f"""
        PRAGMA auto_vacuum = 1;
        {' '.join(f'CREATE TABLE t{n}(a);' for n in range(80))}
        INSERT INTO t7 VALUES (1);"""),
    # Thousands of cells of a page.
    "many-cells": (65536, 0, f"""
        CREATE TABLE t(a);
        INSERT INTO t {up_to(9000)} SELECT n % 200 FROM k;"""),
    # Records with more than 256 columns, and so a header of more bytes.
    "many-columns": (4096, 0, f"""
        CREATE TABLE t({columns(300)});
        INSERT INTO t(c0, c299) {up_to(60)} SELECT n, 'z' || n FROM k;"""),
    # More than 64 children of a page.
    "many-children": (1024, 0, f"""
        CREATE TABLE t(a INTEGER PRIMARY KEY, b);
        INSERT INTO t {up_to(700)} SELECT n, hex(zeroblob(60)) FROM k;"""),
    # Keys that differ in their last column alone, and behind a zero byte.
    "wide-keys": (512, 0, f"""
        CREATE TABLE t({columns(30)}, last); INSERT INTO t {up_to(120)} SELECT {'1,' * 30} n * 37 % 121 FROM k;
        CREATE INDEX i ON t({columns(30)}, last);"""),
    "zero-bytes": (512, 0, f"""
        CREATE TABLE t(a); CREATE INDEX i ON t(a); INSERT INTO t {up_to(90)} SELECT 'ab' || char(0) || printf('%04d', n * 37 % 151) || 'abc' FROM k;
        INSERT INTO t {up_to(90)} SELECT CAST('ab' || char(0) || printf('%04d', n * 37 % 151) || 'abc' AS BLOB) FROM k;"""),
    # Rowids below 0, and long ones.
    "below-0": (512, 0, thinned(300, -600)),
    "long-rowids": (1024, 0, thinned(300, 9 * 10**18)),
    # The first schema format.
    "format-1": (512, 0, mixed(300, 500)),
    # Rows on a few leaves, with freeblocks, and a tree of four levels. Numbers of several pages are overwritten.
    "rows": (512, 0, f"""
        CREATE TABLE t(id INTEGER PRIMARY KEY, a); INSERT INTO t {up_to(120)} SELECT n, 'the row of number ' || n FROM k;
        DELETE FROM t WHERE id % 7 = 3;"""),
    "four-levels": (512, 0, f"""
        CREATE TABLE t(a TEXT); INSERT INTO t {up_to(1500)} SELECT printf('%06d', n * 7919 % 10007) || hex(zeroblob(40)) FROM k;
        CREATE INDEX i ON t(a);"""),
    # Views between tables.
    "views": (1024, 0, """
        CREATE TABLE a(x); CREATE VIEW va AS SELECT 1; CREATE TABLE b(x); CREATE VIEW vb AS SELECT 2; CREATE TABLE c(x);
        CREATE VIEW vc AS SELECT 3;
        INSERT INTO a VALUES ('a'); INSERT INTO b VALUES ('of b'); INSERT INTO c VALUES ('of c');"""),
    # More than 32 root pages, and a pointer map.
    "many-roots": (512, 0, f"""
        PRAGMA auto_vacuum = 1;
        {' '.join(f'CREATE TABLE t{n}(a);' for n in range(40))}
        INSERT INTO t7 VALUES (1);"""),
    # Pages of each size, with free bytes in them and without, in trees of each kind.
    "pages-8192": (8192, 0, mixed(1500, 4000)),
    "pages-16384": (16384, 8, "PRAGMA auto_vacuum = 2;" + mixed(2500, 7000)),
    "pages-32768": (32768, 0, mixed(4000, 12000)),
    "thinned-2048": (2048, 0, "PRAGMA auto_vacuum = 1;" + thinned(300)),
    "thinned-32768": (32768, 0, thinned(2000)),
    "thinned-65536": (65536, 0, thinned(3000)),
    "thinned-utf-16": (512, 0, "PRAGMA auto_vacuum = 1; PRAGMA encoding = 'UTF-16le';" + thinned(150)),
    "free-512": (512, 0, freed(300, 512)),
    "free-32768": (32768, 32, "PRAGMA auto_vacuum = 2; PRAGMA encoding = 'UTF-16le';" + freed(20, 32768)),
    "free-65536": (65536, 0, f"""
        CREATE TABLE o(x); INSERT INTO o {up_to(12)} SELECT zeroblob(65000 + n * 100) FROM k;
        CREATE TABLE u(a); INSERT INTO u VALUES (1); DELETE FROM o WHERE rowid % 4 > 0;"""),
    "long-2048": (2048, 32, long(2048)),
    "long-4096": (4096, 8, "PRAGMA auto_vacuum = 2; PRAGMA encoding = 'UTF-16le';" + long(4096)),
    # Tables without rowids, whose keys go different ways, and a pointer map.
    "mapped-index": (1024, 0, f"""
        PRAGMA auto_vacuum = 1;
        CREATE TABLE w(k TEXT, m INT, v, PRIMARY KEY(m DESC, k)) WITHOUT ROWID;
        INSERT INTO w {up_to(600)} SELECT 'k' || (n * 53 % 997), n % 11, n FROM k;
        UPDATE w SET v = NULL WHERE v % 7 = 2; DELETE FROM w WHERE v % 5 = 2;"""),
    "altered": (1024, 0, "PRAGMA auto_vacuum = 2;" + altered(200)),
    # Trees of three levels in large pages, and interior pages with free bytes: of an index with ten fragments and more, and of a table.
    "deep-8192": (8192, 0, deep(8192)),
    "deep-16384": (16384, 0, deep(16384)),
    "deep-32768": (32768, 0, deep(32768)),
    "exchanged": (1024, 0, exchanged(3000)),
    "few-children": (512, 0, f"""BEGIN;
        CREATE TABLE t(a INTEGER PRIMARY KEY, b); INSERT INTO t {up_to(6000)} SELECT n * 3, zeroblob(40) FROM k;
        DELETE FROM t WHERE a / 3 % 300 BETWEEN 100 AND 150;
        INSERT OR IGNORE INTO t {up_to(150)} SELECT n * 89, zeroblob(50) FROM k; COMMIT;"""),
    # Freeblocks beside cells with overflow pages.
    "chains": (4096, 0, f"""BEGIN;
        CREATE TABLE o(x); INSERT INTO o {up_to(40)} SELECT zeroblob(n % 5 * 4096 + 300) FROM k;
        DELETE FROM o WHERE rowid % 3 = 0; COMMIT;"""),
    # Schemas on page 1 and below it, of larger pages.
    "schema-1024": (1024, 0, schema(30)),
    "schema-4096": (4096, 0, schema(60)),
    "schema-8192": (8192, 0, schema(30, indexes=False)),
    # Fragments and a freeblock in a schema of one page: columns got other names.
    "renamed": (4096, 0, f"""
        {' '.join(f'CREATE TABLE t{n}(a, b{n}, c);' for n in range(20))}
        {' '.join(f'ALTER TABLE t{n} RENAME COLUMN b{n} TO b;' for n in range(3, 20, 4))}
        {' '.join(f'ALTER TABLE t{n} RENAME COLUMN c TO d;' for n in range(2, 20, 5))}
        DROP TABLE t4; DROP TABLE t13; CREATE TABLE q(a); INSERT INTO t5 VALUES (5, 2, 3);"""),
    # Schemas of one page, and of several: with rows without root pages, and with root pages in no order.
    "page-1": (512, 0, """
        CREATE TABLE aa(x); CREATE TABLE bb(x, y, z); CREATE TABLE c(x);
        DROP TABLE bb;
        CREATE TABLE dddd(x, y);
        INSERT INTO c VALUES (1);"""),
    "schema": (512, 0, f"""
        {' '.join(f"CREATE TABLE t{n}(a, b); CREATE INDEX i{n} ON t{n}({'ab'[n % 2]});" for n in range(1, 28))}
        CREATE VIEW vv AS SELECT 1;
        CREATE TABLE last(q);
        CREATE TRIGGER tr AFTER INSERT ON t1 BEGIN SELECT 1; END;
        {' '.join(f"INSERT INTO t{n} VALUES ({n}, 'x');" for n in range(1, 28))}"""),
    "dropped": (512, 0, f"""
        {' '.join(f"CREATE TABLE t{n}(a PRIMARY KEY, b) {'WITHOUT ROWID' if n % 2 else ''};" for n in range(1, 20))}
        DROP TABLE t3; DROP TABLE t8;
        CREATE TABLE y(a); CREATE TABLE z(a);
        INSERT INTO t1 VALUES (1, 2);
        INSERT INTO t2 VALUES ('a', 4);"""),
}

NUMBERS = """
ways 475 1 2 3
ways 512 1 5 2
ways 1024 1 13 10
ways 3072 1 2 5
ways 3084 2 500 487
ways 3084 2 500 501
ways 3572 4 8 9
ways 3584 1 10 13
ways 3678 2 199 49190
ways 5134 2 486 472
without-rowid 437 1 2 5
without-rowid 1058 2 381 380
without-rowid 2232 2 284 254
nocase 1038 2 433 450
nocase 1040 2 450 470
nocase 1491 4 12 10
nocase 2062 2 257 107
late-nocase 8280 2 2862 0
signs 4664 2 273 17
utf-16 18 1 2 9
utf-16 275 1 10 3
utf-16 275 1 10 11
long-keys 8162 4 24 12
long-keys 102400 1 10 9
chains-of-keys 105 2 445 0
chains-of-keys 4016 4 17 16
chains-of-keys 4559 4 6 13
widths 24577 2 393 0
types 3075 2 64 26
types 3500 1 3 0
blobs 3598 2 480 430
negative 1958 1 8 7
lengths-of-integers 6115 4 14 15
columns 507 4 21 34
columns 6152 4 79 47
columns 6156 2 463 267
columns 10466 1 2 13
columns 10955 1 13 2
columns 16916 2 107 152
columns 17781 4 23 33
lengths 146274 3 8486912 8486913
lengths 195967 2 33024 33025
long-rows 5431 3 8712452 8692343
long-rows 7695 3 8692340 0
large-pages 65518 1 2 3
large-pages 65518 1 2 12
large-pages 720899 2 0 1
large-pages 852016 2 65274 65275
reserved 383 1 10 31
reserved 1024 1 13 2
reserved 2053 2 204 201
reserved 2572 2 465 464
reserved 28672 4 58 59
vacuum 56157 2 0 250
freelist 12072 4 99 207
reserved-freelist 32 4 313 312
trunks 435204 4 120 9 930820 4 120 9
trunks 435204 4 120 115
trunks 930820 4 120 115
trunks 1178116 4 41 36
leaves 2052 4 155 156
leaves 2052 4 155 254
leaves 2056 4 4 6
no-freelist 32 4 0 2
no-freelist 52 4 3 0
addresses 1032 4 36 0 1487 4 76 0
addresses 1032 4 36 83 1487 4 76 0
short-rows 6558 2 4 3
short-rows 6580 2 460 459
fragments 56 4 1 2
fragments 1029 2 1014 1011
fragments 2049 2 291 0
fragments 2058 2 211 433
fragments 2341 2 5 4
shrunk 1029 2 1019 1018
shrunk 2428 2 748 0
shrunk 2428 2 748 750
shrunk 2430 2 31 30
shrunk 3075 2 19 0 3077 2 453 455
shrunk 3077 2 453 0
shrunk 3077 2 453 455
updated 519 1 4 3
updated 519 1 4 5
updated 519 1 4 19
updated 519 1 4 34
updated-twice 519 1 4 19
updated-twice 519 1 4 34
updated-and-deleted 515 2 10 6
updated-and-deleted 515 2 10 9
tiny-rows 519 1 6 13
deleted 515 2 18 19
deleted 925 2 10 7
old-pointer 4099 2 99 100
cut-short 2051 2 82 0 2053 2 177 179
many-leaves 8185 4 499 0
many-leaves 2043300 4 103 123
many-leaves 2041463 4 403 413
many-tables 1103 1 80 79
many-tables 52 4 82 0
many-columns 11057 2 33329 33330
many-cells 135080 2 52958 52961
many-children 1580 4 83 93
wide-keys 6616 4 14 15
zero-bytes 1479 4 8 10
rows 72 1 0 1 1027 2 16 14
rows 1019 4 3 0 1014 4 4 0 1009 4 5 0 1004 4 6 0
rows 1024 1 13 5 1536 1 13 5
rows 1024 1 13 10 1536 1 13 10
rows 1025 2 96 9 1537 2 212 9
rows 1027 2 16 14 1539 2 16 14
rows 1029 2 46 0 1541 2 62 0 2053 2 62 0
rows 1031 1 0 9 1543 1 0 9 2055 1 0 9
rows 1122 2 25 64 1750 2 25 64
rows 1440 1 22 3 1973 1 23 3
four-levels 255498 2 233 0
four-levels 310175 4 604 0
views 856 1 4 3
many-roots 52 4 42 0
page-1 377 1 3 19
schema 492 4 39 12
schema 502 4 15 16
schema 16379 1 4 0
dropped 2048 4 0 36
dropped 16808 1 29 3
thinned-2048 16092 2 7 5
thinned-2048 14336 1 10 2
thinned-32768 65536 1 10 5
thinned-65536 131072 1 10 2
thinned-utf-16 1550 2 491 12
altered 2068 2 975 28847
free-512 38709 2 30 29
free-512 460 2 308 307
free-32768 851980 4 6 23
long-2048 208901 2 1078 224
long-4096 14647 2 832 79
long-4096 1085441 2 3593 0
exchanged 1913 2 99 0
exchanged 111339 4 71 69
few-children 34803 2 4 6
few-children 303071 2 21 0
chains 91423 2 496 495
renamed 144 2 3492 3494
renamed 3544 1 14 179
deep-8192 127172 2 0 6
deep-8192 196616 4 27 91 65544 4 24 14
deep-16384 16385 2 8466 8485
deep-16384 131080 4 24 8216 258166 4 13 0
deep-32768 32769 2 16658 16674
deep-32768 295432 4 18 1073741842 491528 4 23 14
history-1016 11744 1 30 49
history-1182 1538 1 37 46
"""


# How often each kind of number is overwritten in each database, and in those of random histories.
COPIES = 5
COPIES_OF_HISTORIES = {kind: 2 for kind in mend.KINDS if not kind.startswith(("two", "three"))} | {
    "a number that is near": 20,
    "a cell pointer that is near": 10,
}

HISTORIES = {f"history-{seed}": histories.history(seed) for seed in (*range(40), 1016, 1182)}


def overwrite_near(db):
    """The count of cells, the content start, the count of fragments or a number of a freeblock: a little more, or less."""
    heads = [db.head(page) for page in db.tree_pages()]
    places = [(head + at, size) for head in heads for at, size in ((3, 2), (5, 2), (7, 1))] + mend.freeblock_numbers(db)
    at, size = db.one_of(places)
    db.put(at, size, (db.number(at, size) + db.one_of([*range(-20, 0), *range(1, 21)])) % 256**size)


def overwrite_near_pointer(db):
    """The pointer of a cell: a little more, or less."""
    pages = [places for places in map(db.cell_pointers, db.tree_pages()) if places]
    if not pages:
        return True
    at = db.one_of(db.one_of(pages))
    db.put(at, 2, (db.number(at, 2) + db.one_of([*range(-6, 0), *range(1, 7)])) % 65536)


def overwrite_pages(count):
    """A number of one kind or another on each of so many pages, as the sound ones have them; none of the header, where some make no fault."""
    kinds = [kind for name, kind in mend.KINDS.items() if not name.startswith(("two", "three")) and kind != mend.overwrite_header]

    def injure(db):
        sound, wrong, pages = bytes(db.data), bytearray(db.data), []
        every = [slice(db.start(page), db.start(page + 1)) for page in range(1, db.pages + 1)]
        for _ in range(8 * count):
            if len(pages) == count:
                break
            db.one_of(kinds)(db)
            changed = [page for page in every if db.data[page] != sound[page]]
            if len(changed) == 1 and changed[0] not in pages:
                pages += changed
                wrong[changed[0]] = db.data[changed[0]]
            db.data[:] = sound
        db.data[:] = wrong
        return len(pages) < count
    return injure


KINDS = mend.KINDS | {
    "a number that is near": overwrite_near,
    "a cell pointer that is near": overwrite_near_pointer,
    "numbers of two pages": overwrite_pages(2),
    "numbers of four pages": overwrite_pages(4),
}


def made(file, name):
    """Makes a database, and gives its bytes."""
    if name in injuries.SHAPES:
        return injuries.made(file, name)[1]
    file.unlink(missing_ok=True)
    page_size, reserved, statements = (DATABASES | HISTORIES)[name]
    words = ["sqlite3", file, f".filectrl reserve_bytes {reserved}", f"PRAGMA page_size = {page_size}; {statements}"]
    subprocess.run(words, check=True, stdout=subprocess.DEVNULL)
    data = bytearray(file.read_bytes())
    chance = sum(name.encode())
    # Numbers of the header that make no fault. Of every second database: of WAL mode, and those of a program of its own.
    if chance % 2:
        data[18:20], data[63], data[71] = b"\2\2", 7, 9
    # SQLite writes the fourth schema format, and reads the first one.
    if name == "format-1":
        data[47] = 1
    # Of every third one: an old SQLite has changed it, so that the number of pages is not known, and bytes come after the last page.
    if chance % 3 == 0:
        data[27] = (data[27] + 5) % 256
        data += b"the end"
    file.write_bytes(data)
    return bytes(data)


def chosen(name, before):
    """The copies with a number of NUMBERS, each with a name of its own."""
    for line in NUMBERS.strip().split("\n"):
        database, *words = line.split()
        if database != name:
            continue
        data = bytearray(before)
        for at, size, was, put in zip(*[map(int, words)] * 4):
            assert int.from_bytes(data[at : at + size], "big") == was, line
            data[at : at + size] = put.to_bytes(size, "big")
        yield line, bytes(data)


def by_chance(name, before, stat):
    """The copies with numbers that a seed chose, each with a name of its own."""
    copies = COPIES_OF_HISTORIES if name in HISTORIES else dict.fromkeys(KINDS, COPIES)
    for kind, count in copies.items():
        for copy in range(count):
            seed = f"{name}-{kind.replace(' ', '-')}-{copy}"
            patient = injuries.Patient(before, before, stat, seed)
            if not KINDS[kind](patient):
                yield seed, bytes(patient.data)


def is_put_back(said, data, before):
    """Whether the changes that `mend` printed make a copy as it was, or none was needed: not each number makes a fault."""
    if said == "ok\n":
        return True
    data = bytearray(data)
    for at, new, _ in mend.changes(said):
        data[at : at + len(new)] = new
    return said.endswith("\nok\n") and data == before


def main():
    dbck, folder = map(pathlib.Path, sys.argv[1:])
    folder.mkdir(parents=True, exist_ok=True)
    dbck = dbck.resolve()
    not_found = pathlib.Path(__file__).with_suffix(".txt").read_text().split()
    wrong = folder / "wrong.db"
    status = 0
    for name in (*DATABASES, *HISTORIES, *injuries.SHAPES):
        file = folder / f"{name}.db"
        before = made(file, name)
        stat = mend.run(dbck, "stat", "--all", file).stdout
        for title, data in (*chosen(name, before), *by_chance(name, before, stat)):
            wrong.write_bytes(data)
            said = mend.run(dbck, "mend", wrong).stdout
            if title not in not_found and not is_put_back(said, data, before):
                print(f"{title}: {said}")
                status = 1
    sys.exit(status)


if __name__ == "__main__":
    main()
