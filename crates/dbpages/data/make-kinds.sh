#!/bin/sh
# Makes kinds.db anew: a database with a page of each kind, of 512 bytes each (sqlite3 of Debian, 3.40.1).
set -eu
cd "$(dirname "$0")"
rm -f kinds.db
sqlite3 kinds.db "PRAGMA page_size = 512;
    PRAGMA auto_vacuum = INCREMENTAL;
    CREATE TABLE note(id INTEGER PRIMARY KEY, text TEXT);
    CREATE INDEX note_text ON note(text);
    CREATE TABLE draft(id INTEGER PRIMARY KEY, text TEXT);
    WITH RECURSIVE k(n) AS (SELECT 1 UNION ALL SELECT n + 1 FROM k WHERE n < 6)
    INSERT INTO note SELECT n, printf('%d%s', n, hex(zeroblob(40))) FROM k;
    INSERT INTO draft VALUES (1, hex(zeroblob(300)));
    CREATE TABLE gone(id INTEGER PRIMARY KEY, text TEXT);
    INSERT INTO gone VALUES (1, 'gone');
    DROP TABLE gone;"
