#!/bin/sh
# Makes whole.db: a table of 40 rows with an index, as SQLite itself writes it (sqlite3 of Debian, 3.40.1); and two-owners.db:
# the same file, where the third child of page 2 is page 7, which is its second child, in place of page 8.
set -eu
rm -f whole.db two-owners.db
sqlite3 whole.db "PRAGMA page_size = 512;
    CREATE TABLE note (id INTEGER PRIMARY KEY, text TEXT);
    CREATE INDEX note_text ON note (text);
    WITH RECURSIVE k(n) AS (SELECT 1 UNION ALL SELECT n + 1 FROM k WHERE n < 40)
    INSERT INTO note SELECT n, printf('note %d, %s', n, hex(zeroblob(n))) FROM k;"
cp whole.db two-owners.db
printf '\007' | dd of=two-owners.db bs=1 seek=1012 conv=notrunc status=none
