#!/bin/sh
# Makes view-last.db anew: a database whose schema ends with a view, and whose header counts 99 pages on a freelist of 3.
# PRAGMA integrity_check of SQLite 3.40.1 says 'ok' of it, since it passes over the freelist of such a file.
set -eu
cd "$(dirname "$0")"
rm -f view-last.db
sqlite3 view-last.db "PRAGMA page_size = 512;
    CREATE TABLE note(id INTEGER PRIMARY KEY, text);
    CREATE TABLE draft(id INTEGER PRIMARY KEY, text);
    INSERT INTO draft VALUES (1, zeroblob(400)), (2, zeroblob(400));
    DROP TABLE draft;
    CREATE VIEW texts AS SELECT text FROM note;"
printf '\143' | dd of=view-last.db bs=1 seek=39 conv=notrunc status=none
