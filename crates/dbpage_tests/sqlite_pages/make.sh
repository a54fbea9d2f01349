#!/usr/bin/env bash
# Makes the databases whose pages end the table ../stdin, in the folder that is given, and prints
# what SQLite's dbstat says of their pages: number, type, cells, payload, unused, largest payload.
set -eu
cd "$1"
rm -f small.db reserved.db large.db

# 512-byte pages: a table and an index of two levels, long rows, and rows that were deleted or shortened
sqlite3 small.db "pragma page_size = 512; create table t(a integer primary key, b text); create index i on t(b);
with recursive n(k) as (select 1 union all select k + 1 from n where k < 40)
insert into t select k * 3 - 20, substr('abcdefghijklmnopqrstuvwxyz', 1 + k % 7, 4 + k % 13) || k from n;
insert into t values (500, printf('%.600c', 'x')), (501, printf('%.120c', 'y'));
delete from t where a in (-8, 1, 13, 43); update t set b = substr(b, 2) where a in (16, 55, 58);"

# 512-byte pages of which 480 bytes are in use
sqlite3 reserved.db ".filectrl reserve_bytes 32" "pragma page_size = 512; vacuum; create table r(a integer primary key, b blob);
insert into r values (1, x'00112233'), (2, zeroblob(300)), (-3, x''); delete from r where a = 1;" > /dev/null

# 65536-byte pages: one with rows, and an empty one
sqlite3 large.db "pragma page_size = 65536; create table l(a integer primary key, b text); create table e(x);
insert into l values (7, 'seven'), (70000, 'seventy thousand'); delete from l where a = 7;"

for db in small reserved large; do
  echo "$db"
  sqlite3 "$db.db" "select pageno, pagetype, ncell, payload, unused, mx_payload, name, path from dbstat order by pageno"
done
