#!/bin/sh
# Makes rows.db anew: a database of 512-byte pages whose names are in UTF-16 (sqlite3 of Debian, 3.40.1). ../stdout has its counts as
# SELECT count(*) gives them.
set -eu
cd "$(dirname "$0")"
rm -f rows.db
sqlite3 rows.db "PRAGMA page_size = 512;
    PRAGMA encoding = 'UTF-16le';
    CREATE TABLE städte(id INTEGER PRIMARY KEY, name TEXT);
    CREATE INDEX städte_name ON städte(name);
    CREATE TABLE κλειδιά(word TEXT PRIMARY KEY, place INTEGER) WITHOUT ROWID;
    CREATE TABLE empty(id INTEGER PRIMARY KEY);
    CREATE TABLE long(id INTEGER PRIMARY KEY, text TEXT);
    CREATE VIEW seen AS SELECT name FROM städte;
    WITH RECURSIVE k(n) AS (SELECT 1 UNION ALL SELECT n + 1 FROM k WHERE n < 100)
    INSERT INTO städte SELECT n, printf('Stadt %d', n) FROM k;
    WITH RECURSIVE k(n) AS (SELECT 1 UNION ALL SELECT n + 1 FROM k WHERE n < 200)
    INSERT INTO κλειδιά SELECT printf('word %03d', n), n FROM k;
    INSERT INTO long VALUES (1, hex(zeroblob(600))), (7, 'short');"
for table in städte κλειδιά empty long; do
    sqlite3 -separator '	' rows.db "SELECT count(*), '$table' FROM $table"
done > ../stdout
