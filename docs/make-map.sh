#!/bin/sh
# Makes map.svg, the picture in the README: make-map.sh DBCK. The database is one of 370 pages, as SQLite itself writes it
# (sqlite3 of Debian, 3.40.1), in which one child of the largest table is overwritten with the page of another.
set -eu
dbck=$(realpath "${1:?give the program}")
cd "$(dirname "$0")"
work=$(mktemp -d)
trap 'rm -rf "$work"' EXIT
sqlite3 "$work/shop.db" "PRAGMA page_size = 1024;
    CREATE TABLE customer (id INTEGER PRIMARY KEY, name TEXT, town TEXT);
    CREATE TABLE orders (id INTEGER PRIMARY KEY, customer INTEGER, day TEXT, note TEXT);
    CREATE TABLE picture (id INTEGER PRIMARY KEY, bytes BLOB);
    CREATE TABLE scratch (text TEXT);
    WITH RECURSIVE k(n) AS (SELECT 1 UNION ALL SELECT n + 1 FROM k WHERE n < 1500)
    INSERT INTO customer SELECT n, printf('customer %d', n * 7919 % 1500), printf('town %d', n % 37) FROM k;
    INSERT INTO scratch SELECT hex(zeroblob(400)) FROM customer LIMIT 60;
    WITH RECURSIVE k(n) AS (SELECT 1 UNION ALL SELECT n + 1 FROM k WHERE n < 2500)
    INSERT INTO orders SELECT n, n * 31 % 1500, printf('2026-%02d-%02d', n % 12 + 1, n % 28 + 1), hex(zeroblob(n % 19)) FROM k;
    INSERT INTO picture SELECT id, zeroblob(9000 + id * 300) FROM customer LIMIT 6;
    CREATE INDEX customer_name ON customer (name);
    CREATE INDEX orders_customer ON orders (customer);
    CREATE INDEX orders_day ON orders (day);
    DELETE FROM scratch;"
printf '\000\000\000\050' | dd of="$work/shop.db" bs=1 seek=2770 conv=notrunc status=none
"$dbck" map "$work/shop.db" > map.svg || [ $? = 1 ]
