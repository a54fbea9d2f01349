#!/bin/bash
# Measures dbck beside SQLite: speed.sh DBCK [FOLDER [ROUNDS]]. It makes databases of some 64 MiB by the sqlite3 program, which
# has to have dbstat, in the folder (they stay there, and are used again), and runs six commands on each, in turn: cat, a
# program that reads each page once and adds up its words of eight bytes, quick_check, dbck check, the rows of dbstat, and dbck
# stat. Of each the least time of all rounds counts. The files are in the page cache then. It prints a table: milliseconds, the
# ratios of dbck to SQLite, to cat and to the adding program, and the peak memory of dbck in MiB, by GNU time.
#
# Two of them are not of one kind of page: mixed has three tables, two indexes and overflow chains; and shuffled, of some 400 MiB,
# rows and entries of an index that came in no order. Two more of some 400 MiB are mostly free: of hundred-leaves all but some 100 leaves
# of a table whose rows came in no order, of dropped all but 4 per cent.
#
# As root it prints a second table: the times with nothing of the file in the page cache, in milliseconds, the least and the
# greatest of a third as many rounds, for cat, quick_check and each command of dbck. A line before it says which disk that was.
set -eu
dbck=$(realpath "${1:?give the program}")
folder=${2:-}
rounds=${3:-7}
if [ -z "$folder" ]; then
    folder=$(mktemp -d)
    trap 'rm -rf "$folder"' EXIT
fi
mkdir -p "$folder"

# make NAME: a database of the SQL on standard input, if it is not there yet.
make() {
    if [ ! -e "$folder/$1" ]; then
        sqlite3 "$folder/$1.new" > /dev/null
        mv "$folder/$1.new" "$folder/$1"
    fi
}

# numbers COUNT: the head of a statement over n(i), with i from 1 to COUNT.
numbers() {
    echo "WITH RECURSIVE n(i) AS (SELECT 1 UNION ALL SELECT i + 1 FROM n WHERE i < $1)"
}

# A number of 32 bits for i, in no order, and each once.
mixed='i * 2654435761 % 4294967296'
settings='PRAGMA page_size = 4096; PRAGMA journal_mode = OFF; PRAGMA synchronous = OFF;'

make small-rows.db <<SQL
$settings
CREATE TABLE t(a INTEGER PRIMARY KEY, b);
$(numbers 2300000) INSERT INTO t SELECT i, printf('%020d', i) FROM n;
SQL

make rows-of-200.db <<SQL
$settings
CREATE TABLE t(a INTEGER PRIMARY KEY, b);
$(numbers 310000) INSERT INTO t SELECT i, printf('%0200d', i) FROM n;
SQL

make random-order.db <<SQL
$settings
CREATE TABLE t(a INTEGER PRIMARY KEY, b);
$(numbers 425000) INSERT INTO t SELECT $mixed, printf('%0*d', 50 + i % 150, i) FROM n;
UPDATE t SET b = printf('%0*d', 50 + a % 100, a) WHERE a % 3 = 0;
DELETE FROM t WHERE a % 7 = 0;
SQL

make random-index.db <<SQL
$settings
CREATE TABLE t(a INTEGER PRIMARY KEY, b);
CREATE INDEX k ON t(b);
$(numbers 900000) INSERT INTO t SELECT i, printf('%08x-%08x-%08x', $mixed, i, i) FROM n;
SQL

make without-rowid.db <<SQL
$settings
CREATE TABLE t(a PRIMARY KEY, b) WITHOUT ROWID;
$(numbers 1100000) INSERT INTO t SELECT printf('%08x', $mixed), printf('%040d', i) FROM n;
SQL

make blobs.db <<SQL
$settings
CREATE TABLE t(a INTEGER PRIMARY KEY, b);
$(numbers 660) INSERT INTO t SELECT i, zeroblob(100000 + i) FROM n;
SQL

make mixed.db <<SQL
$settings
CREATE TABLE customer(id INTEGER PRIMARY KEY, name, email, city);
CREATE INDEX customer_email ON customer(email);
CREATE TABLE invoice(id INTEGER PRIMARY KEY, customer, note);
CREATE INDEX invoice_customer ON invoice(customer);
CREATE TABLE letter(id INTEGER PRIMARY KEY, invoice, body);
$(numbers 100000) INSERT INTO customer SELECT i, printf('%030d', i), printf('%08x@example.org', $mixed), printf('%015d', i) FROM n;
$(numbers 180000) INSERT INTO invoice SELECT i, $mixed % 100000, printf('%0*d', 50 + i % 200, i) FROM n;
$(numbers 1200) INSERT INTO letter SELECT i, i * 150, zeroblob(10000 + i * 10) FROM n;
SQL

make shuffled.db <<SQL
$settings
PRAGMA cache_size = -600000;
CREATE TABLE t(a INTEGER PRIMARY KEY, b, c);
CREATE INDEX k ON t(b);
$(numbers 2380000) INSERT INTO t
    SELECT $mixed, printf('%08x-%08x', i * 2246822519 % 4294967296, i), printf('%0*d', 50 + i % 100, i) FROM n;
SQL

# mostly_free NAME ROWS FILLERS: a table whose rows came in no order, four to a leaf, each before so many pages of a table that is dropped.
mostly_free() {
    make "$1" <<SQL
$settings
PRAGMA cache_size = -600000;
CREATE TABLE t(a INTEGER PRIMARY KEY, b);
CREATE TABLE filler(a INTEGER PRIMARY KEY, b);
CREATE TRIGGER fill AFTER INSERT ON t BEGIN
    INSERT INTO filler(b) SELECT zeroblob(4000) FROM (WITH RECURSIVE m(j) AS (SELECT 1 UNION ALL SELECT j + 1 FROM m WHERE j < $3) SELECT j FROM m);
END;
$(numbers "$2") INSERT INTO t SELECT $mixed, printf('%0900d', i) FROM n;
DROP TRIGGER fill;
DROP TABLE filler;
SQL
}

mostly_free hundred-leaves.db 300 340
mostly_free dropped.db 12000 8

# The adding program, made by cc: it reads each page of 4096 bytes once, and adds up its words of eight bytes.
cat > "$folder/add.c" <<'END'
#include <fcntl.h>
#include <stdint.h>
#include <stdio.h>
#include <unistd.h>

int main(int count, char **words)
{
    static uint64_t page[512];
    uint64_t sum = 0;
    int file = open(words[1], O_RDONLY);
    for (off_t at = 0; pread(file, page, sizeof page, at) == sizeof page; at += sizeof page)
        for (int word = 0; word < 512; word++)
            sum += page[word];
    printf("%llx\n", (unsigned long long)sum);
}
END
cc -O2 -o "$folder/add" "$folder/add.c"

# The present time, in microseconds.
now() {
    echo "${EPOCHREALTIME/./}"
}

# least NAME COMMAND..: keeps the least and the greatest time of NAME, in microseconds. A status of 0 is wanted.
declare -A time most
least() {
    local name=$1 start end
    shift
    start=$(now)
    "$@" > /dev/null
    end=$(now)
    if [ -z "${time[$name]:-}" ] || [ $((end - start)) -lt "${time[$name]}" ]; then
        time[$name]=$((end - start))
    fi
    if [ $((end - start)) -gt "${most[$name]:-0}" ]; then
        most[$name]=$((end - start))
    fi
}

# cold NAME COMMAND..: the same with nothing of the file in the page cache, where the program is.
cold() {
    sync
    echo 3 > /proc/sys/vm/drop_caches
    "$2" --version > /dev/null
    least "$@"
}

# span NAME: the least and the greatest of its times.
span() {
    echo "$((time[$1] / 1000))-$((most[$1] / 1000))"
}

# ratio NAME NAME: of two times, with two decimals.
ratio() {
    local hundredths=$(((time[$1] * 100 + time[$2] / 2) / time[$2]))
    printf '%d.%02d' $((hundredths / 100)) $((hundredths % 100))
}

millis() {
    printf '%d.%d' $((time[$1] / 1000)) $((time[$1] / 100 % 10))
}

memory() {
    /usr/bin/time -f %M "$dbck" "$@" 2>&1 > /dev/null | awk '{ printf "%.1f", $1 / 1024 }'
}

sqlite3 --version | cut -d ' ' -f 1,2
echo '| File | MiB | cat | adding | quick_check | check | to it | to cat | to adding | dbstat | stat | to it | memory |'
echo '|---|---|---|---|---|---|---|---|---|---|---|---|---|'
for file in "$folder"/*.db; do
    time=()
    for _ in $(seq "$rounds"); do
        least cat cat "$file"
        least adding "$folder/add" "$file"
        least quick sqlite3 "$file" 'PRAGMA quick_check'
        least check "$dbck" check "$file"
        least dbstat sqlite3 "$file" 'SELECT * FROM dbstat'
        least stat "$dbck" stat "$file"
    done
    printf '| %s | %d | %s | %s | %s | %s | %s | %s | %s | %s | %s | %s | %s, %s |\n' "$(basename "$file" .db)" \
        $(($(stat -c %s "$file") / 1048576)) "$(millis cat)" "$(millis adding)" "$(millis quick)" "$(millis check)" "$(ratio check quick)" \
        "$(ratio check cat)" "$(ratio check adding)" "$(millis dbstat)" "$(millis stat)" "$(ratio stat dbstat)" "$(memory check "$file")" "$(memory stat "$file")"
done

if ! { [ "$(id -u)" = 0 ] && echo 3 > /proc/sys/vm/drop_caches; } 2> /dev/null; then
    echo 'no second table: the page cache cannot be dropped'
    exit
fi
disk=$(df --output=source "$folder" | tail -n 1)
printf '\non %s: ' "$disk"
lsblk -n -d -o SIZE,ROTA,MODEL "$disk" 2> /dev/null || echo 'a disk that lsblk does not know'
echo '| File | MiB | cat | quick_check | check | to it | to cat | stat | explain | map |'
echo '|---|---|---|---|---|---|---|---|---|---|'
for file in "$folder"/*.db; do
    time=()
    most=()
    for _ in $(seq $(((rounds + 2) / 3))); do
        cold cat cat "$file"
        cold quick sqlite3 "$file" 'PRAGMA quick_check'
        for command in check stat explain map; do
            cold "$command" "$dbck" "$command" "$file"
        done
    done
    printf '| %s | %d | %s | %s | %s | %s | %s | %s | %s | %s |\n' "$(basename "$file" .db)" \
        $(($(stat -c %s "$file") / 1048576)) "$(span cat)" "$(span quick)" "$(span check)" "$(ratio check quick)" \
        "$(ratio check cat)" "$(span stat)" "$(span explain)" "$(span map)"
done
