#!/bin/sh
# Makes small databases by the sqlite3 program (3.37 or later), one of each kind, in the folder that it is given. Each is
# sound, so `dbck check` has to say `ok` of each (program/sound.bats).
set -eu
folder=${1:?give a folder}
mkdir -p "$folder"
cd "$folder"

# make NAME: a database of the SQL on standard input, which SQLite itself finds whole.
make() {
    rm -f "$1"
    sqlite3 "$1" > /dev/null
    [ "$(sqlite3 "$1" 'PRAGMA integrity_check')" = ok ]
}

# rows COUNT TABLE VALUE: puts so many rows into a table of the columns a and b.
rows() {
    echo "WITH RECURSIVE n(i) AS (SELECT 1 UNION ALL SELECT i + 1 FROM n WHERE i < $1) INSERT INTO $2 SELECT i, $3 FROM n;"
}

for size in 512 1024 2048 4096 8192 16384 32768 65536; do
    make "pages-of-$size.db" <<SQL
PRAGMA page_size = $size;
CREATE TABLE t(a INTEGER PRIMARY KEY, b);
CREATE INDEX i ON t(b);
$(rows 300 t "'row ' || i")
SQL
done

for order in le be; do
    make "utf-16$order.db" <<SQL
PRAGMA page_size = 512;
PRAGMA encoding = 'UTF-16$order';
CREATE TABLE "täble"(a, b);
CREATE INDEX "ïndex" ON "täble"(a);
$(rows 50 '"täble"' "'wörd ' || i")
SQL
done

for mode in full incremental; do
    make "autovacuum-$mode.db" <<SQL
PRAGMA page_size = 512;
PRAGMA auto_vacuum = $mode;
CREATE TABLE t(a, b);
CREATE TABLE u(a, b);
CREATE INDEX i ON u(b);
$(rows 200 t "zeroblob(40 * (i % 30))")
$(rows 200 u "'some ' || i")
DELETE FROM t WHERE a % 3 = 0;
SQL
done

make without-rowid.db <<SQL
PRAGMA page_size = 512;
CREATE TABLE t(a, b, PRIMARY KEY(b, a)) WITHOUT ROWID;
$(rows 300 t "'key ' || (i * 7919 % 300)")
SQL

make virtual-table.db <<SQL
PRAGMA page_size = 512;
CREATE VIRTUAL TABLE r USING rtree(id, low, high);
INSERT INTO r VALUES (1, 0, 10), (2, 5, 15);
CREATE VIEW v AS SELECT * FROM r;
CREATE TABLE t(a, b);
CREATE TRIGGER g AFTER INSERT ON t BEGIN DELETE FROM t WHERE a IS NULL; END;
SQL

make reserved-bytes.db <<SQL
.filectrl reserve_bytes 32
PRAGMA page_size = 512;
CREATE TABLE t(a, b);
$(rows 100 t "zeroblob(20 * (i % 60))")
VACUUM;
SQL

make freelist.db <<SQL
PRAGMA page_size = 512;
CREATE TABLE t(a, b);
CREATE TABLE u(a, b);
$(rows 400 t "zeroblob(500)")
$(rows 20 u "i")
DELETE FROM t WHERE a % 5 > 0;
DROP TABLE u;
SQL

make overflow.db <<SQL
PRAGMA page_size = 512;
CREATE TABLE t(a, b);
CREATE INDEX i ON t(b);
$(rows 40 t "printf('%.*c', i * 60, 'x') || i")
SQL

make negative-rowids.db <<SQL
PRAGMA page_size = 512;
CREATE TABLE t(a INTEGER PRIMARY KEY, b);
$(rows 200 t "'up'")
INSERT INTO t SELECT -a * 40000000000, 'down' FROM t;
SQL

{
    echo 'PRAGMA page_size = 512;'
    i=0
    while [ "$i" -lt 200 ]; do
        echo "CREATE TABLE table_$i(a, b); CREATE INDEX index_$i ON table_$i(b);"
        i=$((i + 1))
    done
} | make many-empty-tables.db

make long-sql.db <<SQL
PRAGMA page_size = 512;
CREATE TABLE t(a, b /* $(printf '%02000d' 0) */);
CREATE TABLE u(a, b);
SQL

make empty.db <<SQL
PRAGMA page_size = 512;
VACUUM;
SQL
