#!/bin/sh
# Makes by-sqlite.db: an empty database of one page of 512 bytes, as SQLite itself writes it (sqlite3 of Debian, 3.40.1).
set -eu
rm -f by-sqlite.db
sqlite3 by-sqlite.db 'PRAGMA page_size = 512; VACUUM;'
