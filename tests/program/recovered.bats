#!/usr/bin/env bats
# `--recovered`: the report of the database that SQLite would recover from a file and its logs; none is written.
load common

@test 'the report of a pair is that of what SQLite recovers, and neither file is written' {
    local command
    paired
    cp "$work/pair.db" "$work/kept.db"
    cp "$work/pair.db-wal" "$work/kept.db-wal"
    for command in check 'stat --all' explain; do
        # shellcheck disable=SC2086
        dbck $command "$work/whole.db"
        cp "$work/out" "$work/wanted"
        # shellcheck disable=SC2086
        dbck $command --recovered "$work/pair.db"
        row "what $command writes of a pair" cmp "$work/out" "$work/wanted"
        row "the note of $command on a pair" ended 0 '*' "dbck: note: $work/pair.db-wal: 1 page of 1 transaction is read from it"$'\n'
    done
    cmp "$work/pair.db" "$work/kept.db"
    cmp "$work/pair.db-wal" "$work/kept.db-wal"
}

@test 'without a log, or with one that holds nothing, the report is that of the file' {
    cp "$data/two-tables.db" "$work/x.db"
    dbck check "$work/x.db"
    cp "$work/out" "$work/alone"
    dbck check --recovered "$work/x.db"
    cmp "$work/out" "$work/alone"
    : > "$work/x.db-wal"
    : > "$work/x.db-journal"
    dbck check --recovered "$work/x.db"
    cmp "$work/out" "$work/alone"
    row 'the notes on logs without bytes' ended 1 '*' ''
    echo log > "$work/x.db-wal"
    dbck check --recovered "$work/x.db"
    cmp "$work/out" "$work/alone"
    grep -q 'x.db-wal holds nothing that SQLite would read' "$work/err"
}

@test 'a log that cannot be opened is E8, with its name' {
    cp "$data/whole.db" "$work/x.db"
    mkdir "$work/x.db-wal"
    exactly 4 '' "dbck: note: $work/x.db-wal: a directory"$'\n'"$unread" check --recovered "$work/x.db"
}

# noted NOTE..: the notes of a run over t.db and its log are these, in their order.
noted() {
    local notes=
    dbck check --recovered "$work/t.db"
    while [ $# -gt 0 ]; do
        notes+="dbck: note: $work/t.db-wal: $1"$'\n'
        shift
    done
    row "the notes $notes" ended 0 '*' "$notes"
}

@test 'notes say which frames of a log are left out' {
    # Four rows, a frame each, and one of several frames.
    {
        for k in {0..3}; do echo "INSERT INTO t VALUES ($k)"; done
        echo "INSERT INTO t VALUES ('$(printf '%600s' '' | tr ' ' x)')"
    } | logged t
    # A head of 32 bytes, and frames of 24 + 512: frame 5 begins at byte 2176, and frame 3 at byte 1104.
    cp "$work/t.db-wal" "$work/kept-wal"
    head -c 2176 "$work/kept-wal" > "$work/t.db-wal"
    noted '1 page of 4 transactions is read from it'
    head -c 2712 "$work/kept-wal" > "$work/t.db-wal"
    noted '1 page of 4 transactions is read from it' '1 frame of a transaction that was not committed is left out'
    head -c 2713 "$work/kept-wal" > "$work/t.db-wal"
    noted '1 page of 4 transactions is read from it' '1 frame of a transaction that was not committed is left out' \
        "frame 6 is not valid, at byte 2712; 0 frames after it have the log's salts, and are left out"
    head -c 2176 "$work/kept-wal" > "$work/t.db-wal"
    put_at "$work/t.db-wal" 1200 '\x01'
    noted '1 page of 2 transactions is read from it' \
        "frame 3 is not valid, at byte 1104; 1 frame after it has the log's salts, and is left out"
    # The last transaction has frames 5 to 7.
    cp "$work/kept-wal" "$work/t.db-wal"
    put_at "$work/t.db-wal" 2800 '\x01'
    noted '1 page of 4 transactions is read from it' '1 frame of a transaction that was not committed is left out' \
        "frame 6 is not valid, at byte 2712; 1 frame after it has the log's salts, and is left out"
}

@test 'notes count hundreds of frames that are left out' {
    local k
    { for k in {1..1200}; do echo "INSERT INTO t VALUES ($k)"; done; } | logged t
    # Frame 4 begins at byte 32 + 536 * 3.
    put_at "$work/t.db-wal" 1700 '\xee\xee'
    noted '1 page of 3 transactions is read from it' \
        "frame 4 is not valid, at byte 1640; +([0-9]) frames after it have the log's salts, and are left out"
    grep -Eq '; 12[0-9]{2} frames after it' "$work/err"
    rm "$work/made.db"
    logged t <<< 'INSERT INTO t VALUES (zeroblob(400000))'
    truncate -s $((32 + 536 * 700)) "$work/t.db-wal"
    expect 0 $'ok\n' "dbck: note: $work/t.db-wal holds nothing that SQLite would read"$'\n'"dbck: note: $work/t.db-wal: 700 frames of a transaction that was not committed are left out"$'\n' \
        check --recovered "$work/t.db"
}

@test 'of a log in which no transaction was committed a note counts the frames that are left out' {
    local notes="dbck: note: $work/x.db-wal holds nothing that SQLite would read"$'\n'
    notes+="dbck: note: $work/x.db-wal: 2 frames of a transaction that was not committed are left out"$'\n'
    logged x <<< 'INSERT INTO t VALUES (zeroblob(4000))'
    truncate -s $((32 + 536 * 2)) "$work/x.db-wal"
    exactly 0 $'ok\n' "$notes" check --recovered "$work/x.db"
    : > "$work/x.db"
    expect 3 '' "${notes}dbck: note: $work/x.db is not checked*"$'\ndbck: E1 *' check --recovered "$work/x.db"
}

@test 'the note on a log counts the pages that the database has left' {
    logged t << 'END'
INSERT INTO t VALUES (zeroblob(5000))
DELETE FROM t
VACUUM
END
    noted '2 pages of 3 transactions are read from it'
}

@test 'the logs of a link are those beside what it leads to, and the notes name these' {
    paired
    mkdir "$work/links"
    ln -s ../pair.db "$work/links/link.db"
    # These are of no database.
    echo log > "$work/links/link.db-wal"
    echo log > "$work/links/link.db-journal"
    dbck check "$work/whole.db"
    cp "$work/out" "$work/wanted"
    dbck check --recovered "$work/links/link.db"
    row 'what is reported of a link' cmp "$work/out" "$work/wanted"
    row 'the note on the log of a link' ended 0 '*' "dbck: note: $(realpath "$work")/pair.db-wal: 1 page of 1 transaction is read from it"$'\n'
    rm "$work/pair.db-wal"
    mkdir "$work/pair.db-wal"
    exactly 4 '' "dbck: note: $(realpath "$work")/pair.db-wal: a directory"$'\n'"$unread" check --recovered "$work/links/link.db"
}

@test 'the note on the journal of a link names the one that is read' {
    local journal
    needs python3
    journaled
    journal=$(realpath "$work")/then.db-journal
    mkdir "$work/links"
    ln -s ../then.db "$work/links/link.db"
    echo log > "$work/links/link.db-journal"
    expect 0 $'ok\n' "dbck: note: $journal: +([0-9]) pages are read from it; the database had +([0-9]) pages"$'\n' check --recovered "$work/links/link.db"
    # One that is too long is not read.
    sparse "$journal" 34359738368
    exactly 4 '' "dbck: note: $journal has 32 GiB or more, and is not read"$'\n'"$unread" check --recovered "$work/links/link.db"
}

@test 'a log that leads to itself is E8, and is not passed over' {
    local suffix
    for suffix in journal wal; do
        cp "$data/whole.db" "$work/x.db"
        ln -s "x.db-$suffix" "$work/x.db-$suffix"
        exactly 4 '' "dbck: note: $work/x.db-$suffix: Too many levels of symbolic links"$'\n'"$unread" check --recovered "$work/x.db"
        rm "$work/x.db-$suffix"
    done
}

# journaled: makes before.db, and then.db in a transaction, with its journal, of which some pages were written.
journaled() {
    python3 - "$work" << 'END'
import shutil, sqlite3, sys
made = sys.argv[1] + "/made.db"
db = sqlite3.connect(made, isolation_level=None)
db.execute("PRAGMA page_size = 512")
db.execute("CREATE TABLE t(id INTEGER PRIMARY KEY, a)")
db.executemany("INSERT INTO t(a) VALUES (?)", (("x" * 100,) for _ in range(200)))
shutil.copy(made, sys.argv[1] + "/before.db")
db.execute("PRAGMA cache_size = 5")
db.execute("BEGIN")
db.execute("UPDATE t SET a = 'y'")
for suffix in ("", "-journal"):
    shutil.copy(made + suffix, sys.argv[1] + "/then.db" + suffix)
END
}

@test 'a hot journal is rolled back, and neither file is written' {
    local command
    needs python3
    journaled
    cp "$work/then.db" "$work/kept.db"
    cp "$work/then.db-journal" "$work/kept.db-journal"
    for command in check 'stat --all' explain; do
        # shellcheck disable=SC2086
        dbck $command "$work/before.db"
        cp "$work/out" "$work/wanted"
        # shellcheck disable=SC2086
        dbck $command --recovered "$work/then.db"
        row "what $command writes beside a journal" cmp "$work/out" "$work/wanted"
        row "the note of $command on a journal" grep -q "then.db-journal: [0-9]* pages are read from it; the database had [0-9]* pages" "$work/err"
    done
    cmp "$work/then.db" "$work/kept.db"
    cmp "$work/then.db-journal" "$work/kept.db-journal"
}

@test 'the note on a journal says how many pages it gives, each once, of those that the database had' {
    local note
    needs python3
    journaled
    pages=$(($(wc -c < "$work/before.db") / 512))
    while read -r given numbers; do
        journal_of "$work/before.db" <<< "$numbers"
        note="dbck: note: $work/before.db-journal: ${given/_/ } read from it; the database had $pages pages"$'\n'
        exactly 0 $'ok\n' "${note//_/ }" check --recovered "$work/before.db"
    done << END
3_pages_are 1 2 5
2_pages_are 2 $pages $((pages + 1)) $((pages + 9))
1_page_is 2 2
0_pages_are $((pages + 1))
END
    cp "$data/empty.db" "$work/x.db"
    journal_of "$work/x.db" <<< '1 2'
    note="dbck: note: $work/x.db-journal: 1 page is read from it; the database had 1 page"$'\n'
    exactly 0 $'ok\n' "$note" check --recovered "$work/x.db"
    # One without a record: the transaction changed the length alone.
    cp "$data/whole.db" "$work/x.db"
    journal_of "$work/x.db" <<< ''
    truncate -s +1024 "$work/x.db"
    note="dbck: note: $work/x.db-journal: 0 pages are read from it; the database had 13 pages"$'\n'
    exactly 0 $'ok\n' "$note" check --recovered "$work/x.db"
}

# read_by_sqlite FILE: SQLite reads a table of a database, and recovers it before.
read_by_sqlite() {
    python3 -c 'import sqlite3, sys; sqlite3.connect(sys.argv[1]).execute("SELECT count(*) FROM t").fetchall()' "$1"
}

# The first record is of a page that the database did not have, and its sum is wrong.
@test 'a record of a page that the database did not have is passed over, as SQLite does' {
    needs python3
    journaled
    pages=$(($(wc -c < "$work/before.db") / 512))
    { echo $((pages + 7)) && seq "$pages"; } | journal_of "$work/before.db"
    put_at "$work/before.db-journal" 1028 '\xee\xee\xee\xee'
    mv "$work/before.db-journal" "$work/then.db-journal"
    for suffix in '' -journal; do cp "$work/then.db$suffix" "$work/whole.db$suffix"; done
    read_by_sqlite "$work/whole.db"
    row 'what SQLite makes of both' cmp "$work/whole.db" "$work/before.db"
    dbck stat --all "$work/whole.db"
    cp "$work/out" "$work/wanted"
    dbck stat --all --recovered "$work/then.db"
    row 'what is reported of both' cmp "$work/out" "$work/wanted"
}

# journaled_alone: journaled, and `alone`, what is reported of then.db without its journal.
journaled_alone() {
    needs python3
    journaled
    dbck check "$work/then.db"
    cp "$work/out" "$work/alone"
}

# cold WHY: the journal of then.db is not rolled back; WHY is what is said of that.
cold() {
    dbck check --recovered "$work/then.db"
    row "what is reported beside a journal that $1" cmp "$work/out" "$work/alone"
    row "the note on a journal that $1" grep -qxF "dbck: note: $work/then.db-journal $1" "$work/err"
}

# altered OFFSET BYTES: the journal of then.db has these bytes at an offset, in the place of its own.
altered() {
    cp "$work/kept-journal" "$work/then.db-journal"
    put_at "$work/then.db-journal" "$1" "$2"
}

@test 'a journal of which nothing is used is not rolled back, and a note says why' {
    journaled_alone
    cp "$work/then.db-journal" "$work/kept-journal"
    altered 0 '\x00'
    cold 'begins with 0, and is not rolled back: SQLite does not need it'
    altered 7 '\x00'
    cold 'does not begin as a journal does, and is not rolled back: ask for it again'
    altered 20 '\x00\x00\x00\x21'
    cold 'states a size of a page or sector that cannot be, and is not rolled back: ask for it again'
    altered 24 '\x00\x00\x03\x00'
    cold 'states a size of a page or sector that cannot be, and is not rolled back: ask for it again'
    head -c 511 "$work/kept-journal" > "$work/then.db-journal"
    cold 'has fewer than 512 bytes, and is not rolled back: ask for all of it'
}

# The report of then.db with its journal is that of before.db, which is what SQLite makes of it.
is_rolled_back() {
    dbck check "$work/before.db"
    cp "$work/out" "$work/wanted"
    dbck check --recovered "$work/then.db"
    cmp "$work/out" "$work/wanted"
    grep -q "then.db-journal: [0-9]* pages are read from it; the database had [0-9]* pages" "$work/err"
    read_by_sqlite "$work/then.db"
    cmp "$work/then.db" "$work/before.db"
}

@test 'the name of a super-journal is shown in its note' {
    journaled_alone
    name_super "$work/then.db-journal" "$work/"$'main\e[2J\n.db-mj1'
    cold "names the super-journal $work/main\\x1b[2J\\x0a.db-mj1, which is not here, and is not rolled back (see the manual)"
}

@test 'a journal that is not rolled back, or not read, has its note also beside a -wal' {
    local name=$work/main.db-mj1 read="dbck: note: $work/pair.db-wal: 1 page of 1 transaction is read from it"$'\n'
    paired
    head -c 1024 /dev/zero > "$work/pair.db-journal"
    exactly 0 $'ok\n' "dbck: note: $work/pair.db-journal begins with 0, and is not rolled back: SQLite does not need it"$'\n'"$read" check --recovered "$work/pair.db"
    echo journal > "$work/pair.db-journal"
    exactly 0 $'ok\n' "dbck: note: $work/pair.db-journal has fewer than 512 bytes, and is not rolled back: ask for all of it"$'\n'"$read" check --recovered "$work/pair.db"
    journal_of "$work/pair.db" <<< 1
    name_super "$work/pair.db-journal" "$name"
    exactly 0 $'ok\n' "dbck: note: $work/pair.db-journal names the super-journal $name, which is not here, and is not rolled back (see the manual)"$'\n'"$read" \
        check --recovered "$work/pair.db"
    rm "$work/pair.db-journal"
    sparse "$work/pair.db-journal" 34359738368
    exactly 4 '' "dbck: note: $work/pair.db-journal has 32 GiB or more, and is not read"$'\n'"$unread" check --recovered "$work/pair.db"
}

@test 'a journal that names a super-journal is rolled back where that is there' {
    local name=$work/main.db-mj1
    journaled_alone
    name_super "$work/then.db-journal" "$name"
    cold "names the super-journal $name, which is not here, and is not rolled back (see the manual)"
    # One of the same name in another folder, which is the one that the program runs in, is not it.
    mkdir "$work/here"
    echo then.db-journal > "$work/here/main.db-mj1"
    cd "$work/here"
    cold "names the super-journal $name, which is not here, and is not rolled back (see the manual)"
    cd "$root"
    # To SQLite a file without bytes is none.
    : > "$name"
    cold "names the super-journal $name, which is not here, and is not rolled back (see the manual)"
    echo then.db-journal > "$name"
    is_rolled_back
}

@test 'the name of a super-journal ends at a byte of 0' {
    journaled_alone
    name_super "$work/then.db-journal" "$work/main.db-mj1@more"
    cold "names the super-journal $work/main.db-mj1, which is not here, and is not rolled back (see the manual)"
    echo then.db-journal > "$work/main.db-mj1"
    # SQLite reads the name so.
    is_rolled_back
}

@test 'a journal that names a super-journal is rolled back where its name is not ASCII' {
    local name=$work/$'m\u00e4in.db-mj1'
    journaled_alone
    name_super "$work/then.db-journal" "$name"
    cold "names the super-journal $name, which is not here, and is not rolled back (see the manual)"
    echo then.db-journal > "$name"
    is_rolled_back
}

# It has the name of each database that the transaction wrote.
@test 'a journal that names a super-journal is rolled back where that is long' {
    journaled_alone
    name_super "$work/then.db-journal" "$work/main.db-mj1"
    { echo then.db-journal && head -c 100000 /dev/zero; } > "$work/main.db-mj1"
    is_rolled_back
}

@test 'a super-journal is there whatever its mode, its time, its names and the length of its path' {
    local long mode name read
    needs python3
    long=$(printf '%0200d' 1)
    read="dbck: note: $work/then.db-journal: +([0-9]) pages are read from it; *"
    journaled
    cp "$work/then.db-journal" "$work/kept"
    mkdir "$work/$long"
    name=$work/$long/$long-mj1
    name_super "$work/then.db-journal" "$name"
    echo then.db-journal > "$name"
    expect 0 $'ok\n' "$read" check --recovered "$work/then.db"
    name=$work/main.db-mj1
    cp "$work/kept" "$work/then.db-journal"
    name_super "$work/then.db-journal" "$name"
    echo then.db-journal > "$name"
    for mode in 755 444 600 000; do
        chmod "$mode" "$name"
        expect 0 $'ok\n' "$read" check --recovered "$work/then.db"
    done
    touch -d '1970-01-01 00:00:00Z' "$name"
    expect 0 $'ok\n' "$read" check --recovered "$work/then.db"
    ln "$name" "$work/other"
    expect 0 $'ok\n' "$read" check --recovered "$work/then.db"
}

@test 'of a super-journal whose name is not UTF-8 it is not known whether it is here' {
    local name=$work/$'main\xff.db-mj1'
    journaled_alone
    echo then.db-journal > "$name"
    name_super "$work/then.db-journal" "$name"
    cold "names a super-journal whose name is not UTF-8: it is not known whether that is here, and it is not rolled back (see the manual)"
}

@test 'a super-journal that cannot be is not here' {
    local name
    journaled_alone
    cp "$work/then.db-journal" "$work/kept-journal"
    ln -s itself "$work/itself"
    for name in "$work/then.db/main.db-mj1" "$work/itself"; do
        cp "$work/kept-journal" "$work/then.db-journal"
        name_super "$work/then.db-journal" "$name"
        cold "names the super-journal $name, which is not here, and is not rolled back (see the manual)"
    done
}

@test 'a super-journal that is a link to nothing, or to a file without bytes, is not here' {
    local name=$work/main.db-mj1
    journaled_alone
    name_super "$work/then.db-journal" "$name"
    ln -s nowhere "$name"
    cold "names the super-journal $name, which is not here, and is not rolled back (see the manual)"
    : > "$work/nowhere"
    cold "names the super-journal $name, which is not here, and is not rolled back (see the manual)"
}

@test 'a super-journal in a folder that the caller may not look into is not here' {
    local name=$work/closed/main.db-mj1
    journaled_alone
    name_super "$work/then.db-journal" "$name"
    mkdir -m 000 "$work/closed"
    to_be_nobody
    cold "names the super-journal $name, which is not here, and is not rolled back (see the manual)"
}

@test 'nothing that a journal names is opened, and a pipe or a folder is there as a file is' {
    local make
    needs python3
    journaled
    name_super "$work/then.db-journal" "$work/named"
    as=(timeout 60)
    for make in mkfifo mkdir; do
        "$make" "$work/named"
        expect 0 $'ok\n' "dbck: note: $work/then.db-journal: +([0-9]) pages are read from it; *" check --recovered "$work/then.db"
        rm -r "$work/named"
    done
}

# recovering NOTES WORDS..: a check with --recovered and these words ends so; in NOTES @ is x.db.
recovering() {
    exactly 3 '' "dbck: note: ${1//@/$work/x.db}"$'\n' check --recovered "${@:2}" "$work/x.db"
}

@test 'a note on bytes that the recovered database has says that they are its own' {
    local database='@, as SQLite would recover it,' none='@-journal: 0 pages are read from it; the database had 0 pages'
    local past=$'\ndbck: E11 a byte of --with is past the end of the file' suffix
    needs python3
    cp "$data/two-tables.db" "$work/x.db"
    journal_of "$work/x.db" <<< 1
    # The database had three pages of 512 bytes. The file has eight, so that byte 2000 is in it.
    put_at "$work/x.db-journal" 16 '\0\0\0\3'
    recovering "@-journal: 1 page is read from it; the database had 3 pages"$'\n'"dbck: note: $database has 1536 bytes$past" --with 2000=00
    put_at "$work/x.db-journal" 16 '\0\0\0\0'
    recovering "$none"$'\n'"dbck: note: $database has no bytes$past" --with 0=00
    recovering "$none"$'\n'"dbck: note: @ is not checked"$'\n'"dbck: note: $database has no bytes; to SQLite it is an empty database"$'\n'"dbck: E1 file is shorter than 100 bytes"
    # The first bytes of a page 1 that the journal gives.
    cp "$data/two-tables.db" "$work/kept.db"
    put_at "$work/x.db" 0 '\0\0\0\0\0\0\0\0\0\0\0\0\0\0\0\0'
    journal_of "$work/x.db" <<< 1
    cp "$work/kept.db" "$work/x.db"
    recovering "@-journal: 1 page is read from it; the database had 8 pages"$'\n'"dbck: note: @ is not checked"$'\n'"dbck: note: $database begins with zeros"$'\n'"dbck: E2 file is not a SQLite 3 database"
    # A -wal that adds no page to the two of its database.
    rm "$work/x.db-journal"
    paired
    for suffix in '' -wal; do mv "$work/pair.db$suffix" "$work/x.db$suffix"; done
    recovering "@-wal: 1 page of 1 transaction is read from it"$'\n'"dbck: note: $database has 1024 bytes$past" --with 9000=00
}

# SQLite takes such a file for a new database, and deletes the log.
@test 'beside a file without bytes nothing of a log is read, and the note on the log says so' {
    local suffix note=' holds nothing that SQLite would read'
    needs python3 sqlite3
    note+=$'\ndbck: note: @ is not checked\ndbck: note: @ has no bytes; to SQLite it is an empty database\ndbck: E1 file is shorter than 100 bytes'
    paired
    journal_of "$work/pair.db" <<< '1 2'
    for suffix in wal journal; do
        : > "$work/x.db"
        cp "$work/pair.db-$suffix" "$work/x.db-$suffix"
        recovering "@-$suffix$note"
        row "the tables that SQLite finds beside a -$suffix" [ "$(sqlite3 "$work/x.db" 'SELECT count(*) FROM sqlite_schema')" = 0 ]
    done
}

@test 'no log is taken but those of the file by their names' {
    local name
    paired
    rm "$work/made.db"*
    journaled
    mkdir "$work/here"
    cp "$work/pair.db" "$work/here/x.db"
    for name in x.wal x-wal X.db-wal x.db.wal x.db-wal2 x.db-WAL .x.db-wal; do cp "$work/pair.db-wal" "$work/here/$name"; done
    for name in x.journal x-journal X.db-journal x.db.journal x.db-journal~ .x.db-journal; do cp "$work/then.db-journal" "$work/here/$name"; done
    dbck stat --all "$work/here/x.db"
    cp "$work/out" "$work/wanted"
    dbck stat --all --recovered "$work/here/x.db"
    ended_exactly 0 "$(cat "$work/wanted")"$'\n' ''
}

@test 'a journal that cannot be opened is E8, with its name' {
    cp "$data/whole.db" "$work/x.db"
    mkdir "$work/x.db-journal"
    exactly 4 '' "dbck: note: $work/x.db-journal: a directory"$'\n'"$unread" check --recovered "$work/x.db"
}

@test 'a log that the system cannot look at is E8, and is not passed over' {
    local suffix error said
    needs python3
    cp "$data/whole.db" "$work/x.db"
    while read -r error said; do
        for suffix in journal wal; do
            on_disk "HIDDEN=x.db-$suffix" "HIDDEN_ERROR=$error"
            exactly 4 '' "dbck: note: $work/x.db-$suffix: $said"$'\n'"$unread" check --recovered "$work/x.db"
        done
    done < <(system_errors)
    [ "$rows" -gt 200 ]
}

@test 'a link that the system cannot look at is E8, and its logs are not passed over' {
    cp "$data/whole.db" "$work/x.db"
    echo log > "$work/x.db-wal"
    ln -s x.db "$work/link.db"
    on_disk HIDDEN_LINK=/link.db
    exactly 4 '' "dbck: note: $work/link.db: whether a log is beside it is not known"$'\n'"$unread" check --recovered "$work/link.db"
}

# Its link leads to a name that is no more.
@test 'of a file that is deleted while it is open no log is passed over' {
    local file=/proc/self/fd/7
    [ -e /proc/self/fd/0 ] || skip 'there is no /proc/self/fd'
    cp "$data/whole.db" "$work/x.db"
    exec 7< "$work/x.db"
    exactly 0 $'ok\n' '' check --recovered "$file"
    rm "$work/x.db"
    exactly 4 '' "dbck: note: $file: whether a log is beside it is not known"$'\n'"$unread" check --recovered "$file"
    exactly 0 $'ok\n' "dbck: note: $file: whether a log is beside it is not known"$'\n' check "$file"
    exec 7<&-
}

@test 'a log of 4 GiB or more is not passed over' {
    local size
    paired
    dbck stat --all "$work/whole.db"
    cp "$work/out" "$work/wanted"
    log_notes "$work/pair.db"
    for size in 4294967296 5000000000; do
        sparse "$work/pair.db-wal" "$size"
        dbck stat --all --recovered "$work/pair.db"
        row "what is reported beside a log of $size bytes" cmp "$work/out" "$work/wanted"
        exactly 0 $'ok\n' "$wal" check "$work/pair.db"
    done
}

@test 'a log that cannot be opened for want of a descriptor is E8' {
    paired
    as=(python3 -c 'import os, resource, sys; resource.setrlimit(resource.RLIMIT_NOFILE, (4, 4)); os.execvp(sys.argv[1], sys.argv[1:])')
    exactly 4 '' "dbck: note: $work/pair.db-wal: Too many open files"$'\n'"$unread" check --recovered "$work/pair.db"
}

@test 'of a link whose target is not UTF-8 no log is passed over' {
    local folder=$work/$'caf\xe9'
    mkdir "$folder" 2> "$work/why" || skip "no such name here: $(cat "$work/why")"
    cp "$data/whole.db" "$folder/x.db"
    echo log > "$folder/x.db-wal"
    ln -s "$folder/x.db" "$work/link.db"
    exactly 4 '' "dbck: note: $work/link.db: whether a log is beside it is not known"$'\n'"$unread" check --recovered "$work/link.db"
    exactly 0 $'ok\n' "dbck: note: $work/link.db: whether a log is beside it is not known"$'\n' check "$work/link.db"
}

@test 'a log that the caller may not read is E8, and is not passed over' {
    local suffix
    cp "$data/whole.db" "$work/x.db"
    to_be_nobody
    for suffix in journal wal; do
        echo log > "$work/x.db-$suffix"
        chmod 000 "$work/x.db-$suffix"
        exactly 4 '' "dbck: note: $work/x.db-$suffix: Permission denied"$'\n'"$unread" check --recovered "$work/x.db"
        rm -f "$work/x.db-$suffix"
    done
    # Nothing is known of what this leads to.
    mkdir -m 000 "$work/closed"
    ln -s closed/log "$work/x.db-wal"
    exactly 4 '' "dbck: note: $work/x.db-wal: Permission denied"$'\n'"$unread" check --recovered "$work/x.db"
}

# unread_at NOTE: for each line with the name of a file, an offset and a length, that read of that file fails. A note says so after this one.
unread_at() {
    local at disk name read
    while read -r name at read; do
        for disk in "${disks[@]}"; do
            on_disk "$disk" "AT=$at" "NAME=/$name"
            exactly 4 '' "$1"$'\n'"dbck: note: $work/$name: the $read bytes at $at cannot be read"$'\n'"$unread" check --recovered "$work/x.db"
        done
    done
}

# The first table is in the file alone, and the pages of the second one in the log alone. Page 1 is in both.
@test 'of a read that fails once a -wal was looked through a note names the file, and the place in it' {
    local note="dbck: note: $work/x.db-wal: 10 pages of 1 transaction are read from it"
    logged x 65536 << 'END'
CREATE TABLE u(a)
INSERT INTO t VALUES (zeroblob(4 * 65532))
PRAGMA wal_checkpoint(TRUNCATE)
INSERT INTO u VALUES (zeroblob(8 * 65532))
END
    exactly 0 $'ok\n' "$note"$'\n' check --recovered "$work/x.db"
    # A head of 32 bytes, and ten frames of 24 + 65536: the first page of the log, of which the header is read first, one in its middle, and
    # its last; and three pages of the file.
    unread_at "$note" << 'END'
x.db-wal 56 100
x.db-wal 262296 65536
x.db-wal 590096 65536
x.db 65536 65536
x.db 262144 65536
x.db 393216 65536
END
}

@test 'of a read that fails once a -journal was looked through a note names the file, and the place in it' {
    local note="dbck: note: $work/x.db-journal: 4 pages are read from it; the database had 12 pages"
    row_of 12 32768 "$work/x.db"
    journal_of "$work/x.db" <<< '1 5 7 12'
    exactly 0 $'ok\n' "$note"$'\n' check --recovered "$work/x.db"
    # A head of 512 bytes, and four records of 4 + 32768 + 4.
    unread_at "$note" << 'END'
x.db-journal 516 100
x.db-journal 33292 32768
x.db-journal 98844 32768
x.db 32768 32768
x.db 163840 32768
x.db 327680 32768
END
}

@test 'of a link the note on a read of a log that fails names the log that is read' {
    local disk log notes
    row_of 12 32768 "$work/x.db"
    journal_of "$work/x.db" <<< '1 5 7 12'
    ln -s x.db "$work/link.db"
    log=$(realpath "$work")/x.db-journal
    notes="dbck: note: $log: 4 pages are read from it; the database had 12 pages"$'\n'"dbck: note: $log: the 32768 bytes at 33292 cannot be read"
    for disk in "${disks[@]}"; do
        on_disk "$disk" AT=33292 NAME=/x.db-journal
        exactly 4 '' "$notes"$'\n'"$unread" check --recovered "$work/link.db"
    done
}

# It is read once to see whether the log fits the file, and then by the run.
@test 'where a header that is in a log cannot be read the second time the note on it names the log' {
    local at disk name note notes link real
    real=$(realpath "$work")
    logged w 65536 <<< 'CREATE TABLE u(a)'
    row_of 12 32768 "$work/j.db"
    journal_of "$work/j.db" <<< '1 5 7 12'
    while read -r name at notes; do
        link=$work/link-${name%-*}
        ln -s "${name%-*}" "$link"
        note="dbck: note: $work/$name: $notes"$'\n'"dbck: note: $work/$name: the 100 bytes at $at cannot be read"$'\n'"$unread"
        for disk in "${disks[@]}"; do
            on_disk "$disk" "AT=$at" GOOD=1 "NAME=/$name"
            exactly 4 '' "$note" check --recovered "$work/${name%-*}"
            exactly 4 '' "${note//"$work"/"$real"}" check --recovered "$link"
        done
        as=()
    done << 'END'
w.db-wal 56 2 pages of 1 transaction are read from it
j.db-journal 516 4 pages are read from it; the database had 12 pages
END
    [ "$rows" = 8 ]
}

# long_name COUNT: a name of so many letters.
long_name() {
    printf '%*s' "$1" '' | tr ' ' n
}

# A name in a folder has at most 255 bytes mostly, so a name that is nearly as long leaves no room for that of a log.
@test 'a file whose log could have no name is reported as without the option' {
    local count name
    for count in 247 248 250 251 252 255; do
        name=$(long_name "$count")
        cp "$data/two-tables.db" "$work/$name" 2> "$work/why" || skip "no name of $count bytes here: $(cat "$work/why")"
        dbck check "$work/$name"
        cp "$work/out" "$work/wanted"
        dbck check --recovered "$work/$name"
        row "what is reported of a name of $count bytes" ended_exactly 1 "$(cat "$work/wanted")"$'\n' ''
        cp "$data/whole.db" "$work/$name"
        exactly 0 $'ok\n' '' check --recovered "$work/$name"
        ln -s "$name" "$work/link.db"
        exactly 0 $'ok\n' '' check --recovered "$work/link.db"
        rm "$work/link.db" "$work/$name"
    done
    # The name of a -wal fits where that of a -journal does not, and then it is read.
    name=$(long_name 250)
    cp "$data/whole.db" "$work/$name"
    echo log > "$work/$name-wal"
    dbck check --recovered "$work/$name"
    row 'a log beside a long name' ended 0 $'ok\n' '*-wal holds nothing that SQLite would read'$'\n'
}

# long_path BYTES: makes folders, and answers a path in the last of them that has so many bytes.
long_path() {
    python3 - "$work" "$1" << 'END'
import os, sys
path, size = sys.argv[1], int(sys.argv[2])
os.chdir(path)
while len(path) < size - 5:
    name = "d" * min(200, size - len(path) - 6)
    os.mkdir(name)
    os.chdir(name)
    path += "/" + name
print(path + "/x.db")
END
}

# A call takes a path of at most 4095 bytes. A log with a longer one may be there: a path from another folder can lead to it.
@test 'a log whose path is too long for the system is E8, and is not passed over' {
    local path
    needs python3
    path=$(long_path 4087) || skip 'no long path here'
    cp "$data/whole.db" "$path"
    exactly 0 $'ok\n' '' check --recovered "$path"
    rm -r "${work:?}"/ddd*
    path=$(long_path 4088)
    cp "$data/whole.db" "$path"
    expect 0 $'ok\n' "dbck: note: *x.db-journal is not read, and may undo changes; --recovered reads it"$'\n' check "$path"
    expect 4 '' "dbck: note: *x.db-journal: File name too long"$'\n'"$unread" check --recovered "$path"
}

@test 'a log that is a named pipe is E8, and is not waited for' {
    local suffix
    cp "$data/whole.db" "$work/x.db"
    as=(timeout 10)
    for suffix in journal wal; do
        mkfifo "$work/x.db-$suffix"
        exactly 4 '' "dbck: note: $work/x.db-$suffix: not a regular file: unpack it first"$'\n'"$unread" check --recovered "$work/x.db"
        rm "$work/x.db-$suffix"
    done
}

@test 'a database that a journal makes longer than 4 GiB is read' {
    needs python3
    python3 -c 'import sqlite3, sys; sqlite3.connect(sys.argv[1]).executescript("PRAGMA page_size = 65536; CREATE TABLE t(a)")' "$work/x.db"
    cp "$work/x.db" "$work/long.db"
    sparse "$work/long.db" $((65536 * 70000))
    dbck check --limit 3 "$work/long.db"
    cp "$work/out" "$work/wanted"
    # A head that states 70000 pages of 65536 bytes, and no record.
    head -c 512 /dev/zero > "$work/x.db-journal"
    put_at "$work/x.db-journal" 0 '\xd9\xd5\x05\xf9\x20\xa1\x63\xd7'
    put_at "$work/x.db-journal" 16 '\x00\x01\x11\x70\x00\x00\x02\x00\x00\x01\x00\x00'
    dbck check --limit 3 --recovered "$work/x.db"
    row 'what is reported of 70000 pages' cmp "$work/out" "$work/wanted"
    row 'how it ends' ended 0 '*' "dbck: note: $work/x.db-journal: 0 pages are read from it; the database had 70000 pages"$'\n*'
}

# of_other_version LOG: a -wal has another version, and the sum of its head fits.
of_other_version() {
    python3 - "$1" << 'END'
import sys
path = sys.argv[1]
data = bytearray(open(path, "rb").read())
data[7] ^= 1
order = "big" if data[3] & 1 else "little"
a = b = 0
for at in range(0, 24, 8):
    a = (a + int.from_bytes(data[at : at + 4], order) + b) & 0xFFFFFFFF
    b = (b + int.from_bytes(data[at + 4 : at + 8], order) + a) & 0xFFFFFFFF
data[24:32] = a.to_bytes(4, "big") + b.to_bytes(4, "big")
open(path, "wb").write(data)
END
}

@test 'a log of another version does not fit' {
    needs python3
    paired
    of_other_version "$work/pair.db-wal"
    expect 3 '' "dbck: note: $work/pair.db-wal has a version that SQLite does not open"$'\ndbck: E11 the log does not fit the database\n' check --recovered "$work/pair.db"
}

@test 'a log that is written while the database is read has a note' {
    local database log note suffix
    large_database
    flags=(--recovered)
    database=$(changed_note "$work/large.db")
    for suffix in journal wal; do
        log=$work/large.db-$suffix
        note=$(changed_note "$log")
        echo log > "$log"
        meanwhile "$work/large.db" dd if=/dev/zero of="$log" bs=1 count=9 status=none
        row "the note on a -$suffix" ended 0 '*' "dbck: note: $log *"$'\n'"${note%.}"
        meanwhile "$work/large.db" truncate -s 0 "$log"
        row "the note on a -$suffix that is emptied" ended 0 '*' "dbck: note: $log *"$'\n'"${note%.}"
        # Of a log without bytes there is no other note.
        meanwhile "$work/large.db" truncate -s 9 "$log"
        row "the note on a -$suffix that gets its first bytes" ended 0 '*' "${note%.}"
        meanwhile "$work/large.db" touch -d '2001-01-01 00:00:00.1' "$work/large.db" "$log"
        row "the notes on the database and on a -$suffix" ended 0 '*' "*${database%.}${note%.}"
        touch "$work/large.db"
        rm "$log"
    done
}

# It waits with its first note, which is of the journal: then the -wal is opened, and not yet read.
@test 'a database or a log that is written while they are read as one has a note' {
    local change name note notes="dbck: note: $work/x.db-journal: 1 page is read from it; the database had 1 page"
    needs python3
    notes+=$'\n'"dbck: note: $work/x.db-wal holds nothing that SQLite would read"$'\n'
    while read -r name change; do
        cp "$data/empty.db" "$work/x.db"
        journal_of "$work/x.db" <<< 1
        note=$(changed_note "$work/$name")
        at_first_note "$change '$work/$name'" check --recovered "$work/x.db"
        row "$name that is written" ended_exactly 0 $'ok\n' "$notes${note%.}"
        touch "$work/x.db" "$work/x.db-journal"
        at_first_note "$change '$work/$name'" check --recovered --with 92=0000 "$work/x.db"
        row "$name that is written, of a file with other bytes" \
            ended_exactly 0 $'ok\n' "${notes}dbck: note: $work/x.db with 2 other bytes"$'\n'"${note%.}"
        touch "$work/x.db" "$work/x.db-journal"
        at_first_note "$change '$work/$name'" mend --recovered "$work/x.db"
        row "$name that is written while mend reads it" ended 0 $'ok\n' "*${note%.}"
    done << 'END'
x.db touch -d '2001-01-01 00:00:00.1'
x.db-journal touch -d '2001-01-01 00:00:00.1'
x.db-wal echo more >>
END
    [ "$rows" = 9 ]
}

@test 'with --recovered each command has the notes of check, and one on a log that is written' {
    local command log note notes
    needs python3
    cp "$data/empty.db" "$work/x.db"
    journal_of "$work/x.db" <<< 1
    notes="dbck: note: $work/x.db-journal: 1 page is read from it; the database had 1 page"$'\n'
    notes+="dbck: note: $work/x.db-wal holds nothing that SQLite would read"$'\n'
    for command in check explain map stat; do
        for log in journal wal; do
            touch "$work/x.db-journal"
            note=$(changed_note "$work/x.db-$log")
            at_first_note "touch -d '2001-01-01 00:00:00.1' '$work/x.db-$log'" "$command" --recovered "$work/x.db"
            row "$command, and a -$log that is written" ended 0 '*' "$notes${note%.}"
        done
    done
    [ "$rows" = 8 ]
}

@test 'with --recovered mend says what was read of a journal' {
    local read
    needs python3
    cp "$data/empty.db" "$work/x.db"
    journal_of "$work/x.db" <<< 1
    read="dbck: note: $work/x.db-journal: 1 page is read from it; the database had 1 page"$'\n'
    expect 0 $'ok\n' "$read*the changes are of the database that SQLite would recover, not of this file"$'\n' mend --recovered "$work/x.db"
    echo log > "$work/x.db-journal"
    exactly 0 $'ok\n' "dbck: note: $work/x.db-journal has fewer than 512 bytes, and is not rolled back: ask for all of it"$'\n' mend --recovered "$work/x.db"
}

@test 'with --recovered mend says whose changes it finds, whatever the limit, the bytes of --with and what the logs hold' {
    local joined='*the changes are of the database that SQLite would recover, not of this file'$'\n*' words
    needs python3
    cp "$data/empty.db" "$work/x.db"
    journal_of "$work/x.db" <<< 1
    paired
    for words in '--limit 1' '--limit 16' '--with 92=0000' '--limit 1 --with 92=0000'; do
        # shellcheck disable=SC2086
        expect 0 $'ok\n' "$joined" mend --recovered $words "$work/x.db"
        # shellcheck disable=SC2086
        expect 0 $'ok\n' "$joined" mend --recovered $words "$work/pair.db"
    done
    echo log > "$work/x.db-wal"
    expect 0 $'ok\n' "$joined" mend --recovered "$work/x.db"
    [ "$rows" = 9 ]
}

@test 'the note on a log that is written while a link is read names the one that is read' {
    local name note notes real
    needs python3
    real=$(realpath "$work")
    cp "$data/empty.db" "$work/x.db"
    ln -s x.db "$work/link.db"
    journal_of "$work/x.db" <<< 1
    echo log > "$work/x.db-wal"
    notes="dbck: note: $real/x.db-journal: 1 page is read from it; the database had 1 page"$'\n'
    notes+="dbck: note: $real/x.db-wal holds nothing that SQLite would read"$'\n'
    for name in x.db-journal x.db-wal; do
        note=$(changed_note "$real/$name")
        at_first_note "touch -d '2001-01-01 00:00:00.1' '$work/$name'" check --recovered "$work/link.db"
        row "$name that is written" ended_exactly 0 $'ok\n' "$notes${note%.}"
    done
}

# elsewhere DATABASE WRITE: all files are as they were, and link.db leads to this database. At the first note `change` is made, in which NAME is
# the database, and then its -wal is written so; `note` is the note on that.
elsewhere() {
    cp "$work/kept/"* "$work"
    ln -sfn "$1" "$work/link.db"
    note=$(changed_note "$real/$1-wal")
    at_first_note "${change//NAME/$work/$1}; $2 '$work/$1-wal'" check --recovered "$work/link.db"
}

@test 'the notes on a log name the one that is read, also where a link leads elsewhere meanwhile or the database is moved' {
    local change log note notes read real
    real=$(realpath "$work")
    paired
    mkdir "$work/kept"
    mv "$work/pair.db" "$work/pair.db-wal" "$work/kept"
    cp "$data/empty.db" "$work/kept/x.db"
    journal_of "$work/kept/x.db" <<< 1
    cp "$data/whole.db" "$work/kept/other.db"
    for log in x other; do echo log > "$work/kept/$log.db-wal"; done
    notes="dbck: note: $real/x.db-journal: 1 page is read from it; the database had 1 page"$'\n'
    notes+="dbck: note: $real/x.db-wal holds nothing that SQLite would read"$'\n'
    read="dbck: note: $real/pair.db-wal: 1 page of 1 transaction is read from it"$'\n'
    read+="dbck: note: $real/pair.db-wal: the 512 bytes at 56 cannot be read"$'\n'
    for change in "ln -sfn other.db '$work/link.db'" "mv '$work/other.db' '$work/link.db'" "rm '$work/link.db'" "mv 'NAME' '$work/y.db'"; do
        elsewhere x.db "touch -d '2001-01-01 00:00:00.1'"
        row "a -wal that is written after $change" ended_exactly 0 $'ok\n' "$notes${note%.}"
        elsewhere pair.db 'truncate -s 100'
        row "a -wal that is cut after $change" ended_exactly 4 '' "$read${note%.}$unread"
    done
    [ "$rows" = 8 ]
}

# The reads of the database and then of its journal take 200 ms each, and the journal is written in the first of them.
@test 'a journal that is written while it is read has a note' {
    local note pid
    needs python3
    cp "$data/empty.db" "$work/x.db"
    journal_of "$work/x.db" <<< 1
    note=$(changed_note "$work/x.db-journal")
    on_disk SLOW=200000
    "${as[@]}" "$DBCK" check --recovered "$work/x.db" > "$work/out" 2> "$work/err" < /dev/null 3>&- &
    pid=$!
    until waits_with "$pid" "$work/x.db-journal"; do
        kill -0 "$pid" 2> "$work/why" || fail 'the program ended before the journal was written'
        sleep 0.01
    done
    touch -d '2001-01-01 00:00:00.1' "$work/x.db-journal"
    status=0
    wait "$pid" || status=$?
    ended_exactly 0 $'ok\n' "dbck: note: $work/x.db-journal: 1 page is read from it; the database had 1 page"$'\n'"${note%.}"
}

# cut_short LOG SIZE NOTES READ: a log is cut to a size once it was looked through, so that this read of it fails. In NOTES @ begins a note on its database.
cut_short() {
    local database=$work/${1%-*} note
    note=$(changed_note "$work/$1")
    at_first_note "truncate -s $2 '$work/$1'" check --recovered "$database"
    row "$1 that is cut" ended_exactly 4 '' "${3//@/dbck: note: $database}"$'\n'"dbck: note: $work/$1: the $4 cannot be read"$'\n'"${note%.}$unread"
}

# A record of the journal has 4 bytes before its page and 4 behind it.
@test 'a log that is cut while it is read has a note before the error' {
    row_of 12 32768 "$work/x.db"
    journal_of "$work/x.db" <<< '1 5 7 12'
    cut_short x.db-journal 33292 $'@-journal: 4 pages are read from it; the database had 12 pages\n@-wal holds nothing that SQLite would read' \
        '32768 bytes at 33292'
    paired
    cut_short pair.db-wal 100 '@-wal: 1 page of 1 transaction is read from it' '512 bytes at 56'
}

# unfit NAME DATABASE WHY: the file NAME, which is this database or a log of it, is written before it is found that a log does not fit it.
unfit() {
    local note
    note=$(changed_note "$work/$1")
    at_first_note "touch -d '2001-01-01 00:00:00.1' '$work/$1'" check --recovered "$work/$2"
    row "$1 that is written" ended 3 '' "*dbck: note: $work/$2$3"$'\n'"${note%.}"$'dbck: E11 the log does not fit the database\n'
}

@test 'a database or a log that is written before it is found that they do not fit has a note' {
    local name
    needs python3
    cp "$data/two-tables.db" "$work/x.db"
    # A journal of pages of 1024 bytes.
    journal_of "$work/x.db" <<< 2
    put_at "$work/x.db-journal" 24 '\0\0\04\0'
    for name in x.db x.db-journal x.db-wal; do unfit "$name" x.db ' and its log have pages of different sizes'; done
    # A -wal of another version, which is gone after each run.
    paired
    of_other_version "$work/pair.db-wal"
    journal_of "$work/pair.db" <<< 1
    mv "$work/pair.db-wal" "$work/kept-wal"
    for name in pair.db pair.db-journal pair.db-wal; do
        cp "$work/kept-wal" "$work/pair.db-wal"
        unfit "$name" pair.db '-wal has a version that SQLite does not open'
    done
}

# joined WORDS..: the program reads x.db and its journal as one, and x.db is written meanwhile, and $also is done.
joined() {
    at_first_note "touch -d '2001-01-01 00:00:00.1' '$work/x.db'; $also" "$@" --recovered "$work/x.db"
}

@test 'a database that is written while it and a log are read as one has a note before each error' {
    local also='' note read="dbck: note: $work/x.db-journal: 1 page is read from it; the database had"
    local wal="dbck: note: $work/x.db-wal holds nothing that SQLite would read"$'\n'
    needs python3 prlimit
    note=$(changed_note "$work/x.db")
    cp "$data/empty.db" "$work/x.db"
    journal_of "$work/x.db" <<< 1
    joined check --with 9999=00
    row 'bytes past the end' ended_exactly 3 '' "$read 1 page"$'\n'"${wal}dbck: note: $work/x.db, as SQLite would recover it, has 512 bytes"$'\n'"${note%.}"$'dbck: E11 a byte of --with is past the end of the file\n'
    # It had 2^26 pages.
    put_at "$work/x.db-journal" 16 '\04\0\0\0'
    touch "$work/x.db"
    also="prlimit --pid \$pid --as=40000000"
    joined check
    row 'memory that is refused' ended_exactly 5 '' "$read 67108864 pages"$'\n'"$wal${note%.}"$'dbck: E9 out of memory\n'
    also=
    # A size of a page of which no checksum of a journal knows.
    put_at "$work/x.db-journal" $((512 + 4 + 16)) '\03'
    touch "$work/x.db"
    joined check
    row 'a header that is refused' ended 3 '' "$read 67108864 pages"$'\n'"${wal}dbck: note: $work/x.db is not checked*"$'\n'"${note%.}"$'dbck: E3 *'
    rm "$work/x.db"
    row_of 3000 512 "$work/x.db"
    journal_of "$work/x.db" <<< 1
    flags=(--recovered)
    trap '' PIPE
    touched() { touch -d '2001-01-01 00:00:00.1' "$work/x.db" && false; }
    meanwhile "$work/x.db" touched
    row 'rows that cannot be written' ended 6 s "$read *"$'\ndbck: note: standard output: Broken pipe\n'"${note%.}$unwritten"
    [ "$rows" = 4 ]
}

@test 'with --recovered and --with a note says that the bytes are others' {
    paired
    exactly 0 $'ok\n' "dbck: note: $work/pair.db-wal: 1 page of 1 transaction is read from it"$'\n'"dbck: note: $work/pair.db with 2 other bytes"$'\n' \
        check --recovered --with 92=0000 "$work/pair.db"
}

@test 'bytes after the last page of a recovered database are counted' {
    local read="dbck: note: $work/x.db-journal: 1 page is read from it; the database"
    local rest=$'dbck: note: 1024 bytes after page @ are not read, 2 whole pages among them\n'
    needs python3
    cp "$data/two-tables.db" "$work/x.db"
    journal_of "$work/x.db" <<< 1
    # It had ten pages, and states eight.
    put_at "$work/x.db-journal" 16 '\0\0\0\012'
    expect 1 '*' "$read had 10 pages"$'\n'"${rest/@/8}" check --recovered "$work/x.db"
    # A sound one, which had fifteen, and states thirteen.
    cp "$data/whole.db" "$work/x.db"
    journal_of "$work/x.db" <<< 1
    put_at "$work/x.db-journal" 16 '\0\0\0\017'
    exactly 0 $'ok\n' "$read had 15 pages"$'\n'"${rest/@/13}" check --recovered "$work/x.db"
}

@test 'a log of pages of another size does not fit' {
    paired
    # The header states pages of 1024 bytes.
    put_at "$work/pair.db" 16 '\x04\x00'
    exactly 3 '' "dbck: note: $work/pair.db-wal: 1 page of 1 transaction is read from it"$'\n'"dbck: note: $work/pair.db and its log have pages of different sizes"$'\ndbck: E11 the log does not fit the database\n' \
        check --recovered "$work/pair.db"
}

@test 'a -wal of pages of another size does not fit what a journal makes of its database' {
    cp "$data/empty.db" "$work/x.db"
    logged y 1024 <<< 'INSERT INTO t VALUES (1)'
    mv "$work/y.db-wal" "$work/x.db-wal"
    journal_of "$work/x.db" <<< 1
    exactly 3 '' "dbck: note: $work/x.db-journal: 1 page is read from it; the database had 1 page"$'\n'"dbck: note: $work/x.db-wal: 1 page of 1 transaction is read from it"$'\n'"dbck: note: $work/x.db and its log have pages of different sizes"$'\ndbck: E11 the log does not fit the database\n' \
        check --recovered "$work/x.db"
}

@test 'a log has to fit the header with the bytes of --with' {
    local log unfit
    needs python3
    paired
    cp "$data/whole.db" "$work/x.db"
    journal_of "$work/x.db" <<< 2
    unfit=" and its log have pages of different sizes"$'\ndbck: E11 the log does not fit the database\n'
    for log in "pair.db|-wal: 1 page of 1 transaction is read from it" "x.db|-journal: 1 page is read from it; the database had 13 pages"; do
        set -- "$work/${log%|*}" "dbck: note: $work/${log/|/}"$'\n'
        exactly 3 '' "$2dbck: note: $1$unfit" check --recovered --with 16=0400 "$1"
        put_at "$1" 16 '\x04\x00'
        exactly 3 '' "$2dbck: note: $1$unfit" check --recovered "$1"
        exactly 0 $'ok\n' "$2dbck: note: $1 with 2 other bytes"$'\n' check --recovered --with 16=0200 "$1"
    done
}

# A writer that stops leaves a journal that is older than the pages that it wrote after it, and a checkpoint a log that is older than those.
@test 'a log that is older than its database is read' {
    needs python3
    journaled
    rm "$work"/made.db*
    dbck stat --all "$work/before.db"
    cp "$work/out" "$work/wanted"
    touch -d '2001-01-01' "$work/then.db-journal"
    dbck stat --all --recovered "$work/then.db"
    row 'what is reported beside an old journal' cmp "$work/out" "$work/wanted"
    paired
    dbck stat --all "$work/whole.db"
    cp "$work/out" "$work/wanted"
    touch -d '2001-01-01' "$work/pair.db-wal"
    dbck stat --all --recovered "$work/pair.db"
    row 'what is reported beside an old log' cmp "$work/out" "$work/wanted"
}

@test 'a log of another mode, or with another name, is read' {
    local note mode
    paired
    note="dbck: note: $work/pair.db-wal: 1 page of 1 transaction is read from it"$'\n'
    for mode in 444 400 755; do
        chmod "$mode" "$work/pair.db-wal"
        exactly 0 $'ok\n' "$note" check --recovered "$work/pair.db"
    done
    ln "$work/pair.db-wal" "$work/other"
    exactly 0 $'ok\n' "$note" check --recovered "$work/pair.db"
}

# Page 1 is whole in the journal alone.
@test 'a log of another owner is read' {
    needs python3
    [ "$(id -u)" = 0 ] || skip 'only root may give files away'
    paired
    cp "$data/empty.db" "$work/x.db"
    journal_of "$work/x.db" <<< 1
    put_at "$work/x.db" 18 '\011'
    chown 12345 "$work/x.db-journal" "$work/pair.db-wal" 2> "$work/why" || skip "no other owner here: $(cat "$work/why")"
    exactly 0 $'ok\n' "dbck: note: $work/x.db-journal: 1 page is read from it; the database had 1 page"$'\n' check --recovered "$work/x.db"
    exactly 0 $'ok\n' "dbck: note: $work/pair.db-wal: 1 page of 1 transaction is read from it"$'\n' check --recovered "$work/pair.db"
}

@test 'a log of another group, or of another time, is read' {
    local note
    paired
    note="dbck: note: $work/pair.db-wal: 1 page of 1 transaction is read from it"$'\n'
    touch -d '1970-01-01 00:00:00Z' "$work/pair.db-wal"
    exactly 0 $'ok\n' "$note" check --recovered "$work/pair.db"
    [ "$(id -u)" = 0 ] || skip 'only root may give files away'
    chown 12345:12345 "$work/pair.db-wal" 2> "$work/why" || skip "no other owner here: $(cat "$work/why")"
    exactly 0 $'ok\n' "$note" check --recovered "$work/pair.db"
}

@test 'a log on another file system is read, and has its note' {
    local far
    paired
    far=$(mktemp -d /dev/shm/dbck.XXXXXX 2> "$work/why") || skip "no other file system here: $(cat "$work/why")"
    mv "$work/pair.db-wal" "$far/log"
    ln -s "$far/log" "$work/pair.db-wal"
    log_notes "$work/pair.db"
    exactly 0 $'ok\n' "dbck: note: $work/pair.db-wal: 1 page of 1 transaction is read from it"$'\n' check --recovered "$work/pair.db"
    exactly 0 $'ok\n' "$wal" check "$work/pair.db"
    rm -r "$far"
}

# SQLite keeps a -shm beside a database that is open, or was not closed.
@test 'a log beside a -shm is read, and has its note where it is not' {
    local read
    paired
    read="dbck: note: $work/pair.db-wal: 1 page of 1 transaction is read from it"$'\n'
    log_notes "$work/pair.db"
    dd if=/dev/zero of="$work/pair.db-shm" bs=32768 count=1 status=none
    exactly 0 $'ok\n' "$wal" check "$work/pair.db"
    exactly 0 $'ok\n' "$read" check --recovered "$work/pair.db"
    rm "$work/pair.db-wal"
    exactly 0 $'ok\n' '' check "$work/pair.db"
    echo log > "$work/pair.db-journal"
    exactly 0 $'ok\n' "$journal" check "$work/pair.db"
    exactly 0 $'ok\n' "dbck: note: $work/pair.db-journal has fewer than 512 bytes, and is not rolled back: ask for all of it"$'\n' \
        check --recovered "$work/pair.db"
}

# So has one in WAL mode that another program has open, which holds a lock on it.
@test 'the -wal of a database that SQLite has open is read, and has its note where it is not' {
    local said
    needs python3
    said=$(python3 - "$work/x.db" "$DBCK" << 'END'
import sqlite3, subprocess, sys
path, program = sys.argv[1:]
db = sqlite3.connect(path, isolation_level=None)
db.execute("PRAGMA journal_mode = WAL")
db.execute("PRAGMA wal_autocheckpoint = 0")
db.execute("CREATE TABLE t(a)")
for words in ["check"], ["check", "--recovered"]:
    run = subprocess.run([program, *words, path], capture_output=True, text=True)
    print(run.returncode, run.stdout.strip(), run.stderr.strip().replace(path, "x.db"))
END
    )
    [ "$said" = "0 ok dbck: note: x.db-wal is not read, and may hold changes; --recovered reads it
0 ok dbck: note: x.db-wal: 2 pages of 1 transaction are read from it" ] || fail "$said"
}

# A path below /dev is no device: /dev/shm has files.
@test 'a database below /dev has its logs, its notes, and is seen to be written' {
    local folder note read
    folder=$(mktemp -d /dev/shm/dbck.XXXXXX 2> "$work/why") || skip "there is no /dev/shm: $(cat "$work/why")"
    paired
    read="dbck: note: $folder/pair.db-wal: 1 page of 1 transaction is read from it"$'\n'
    mv "$work/pair.db" "$work/pair.db-wal" "$folder"
    log_notes "$folder/pair.db"
    note=$(changed_note "$folder/pair.db")
    exactly 0 $'ok\n' "$wal" check "$folder/pair.db"
    exactly 0 $'ok\n' "$read" check --recovered "$folder/pair.db"
    status=0
    "$DBCK" check --recovered /dev/stdin < "$folder/pair.db" > "$work/out" 2> "$work/err" || status=$?
    row '/dev/stdin' ended_exactly 0 $'ok\n' "$read"
    at_first_note "touch -d '2001-01-01 00:00:00.1' '$folder/pair.db'" check "$folder/pair.db"
    row 'a database below /dev that is written' ended_exactly 0 $'ok\n' "$wal${note%.}"
    rm -r "$folder"
}

@test 'the logs of a link to a link are those beside the file itself' {
    local real
    paired
    real=$(realpath "$work")
    mkdir "$work/a" "$work/b"
    ln -s ../pair.db "$work/a/first.db"
    ln -s ../a/first.db "$work/b/second.db"
    dbck stat --all "$work/whole.db"
    cp "$work/out" "$work/wanted"
    dbck stat --all --recovered "$work/b/second.db"
    row 'what is reported of a link to a link' cmp "$work/out" "$work/wanted"
    row 'the note on the log of a link to a link' ended 0 '*' "dbck: note: $real/pair.db-wal: 1 page of 1 transaction is read from it"$'\n'
    log_notes "$real/pair.db"
    expect 0 '*' "$wal" check "$work/b/second.db"
}

@test 'a database that is written while it and a log are read has a note' {
    local note suffix
    large_database
    flags=(--recovered)
    for suffix in journal wal; do
        echo log > "$work/large.db-$suffix"
        touch "$work/large.db"
        meanwhile "$work/large.db" touch -d '2001-01-01 00:00:00.1' "$work/large.db"
        note=$(changed_note "$work/large.db")
        row "the note on a database beside a -$suffix" ended 0 '*' "dbck: note: $work/large.db-$suffix *"$'\n'"${note%.}"
        rm "$work/large.db-$suffix"
    done
}

@test 'a run over a pair leaves the folder as it is' {
    needs python3
    journaled
    rm "$work"/made.db*
    paired
    mkdir "$work/here"
    cp -p "$work/then.db" "$work/then.db-journal" "$work/pair.db" "$work/pair.db-wal" "$work/here"
    cp -p "$work/then.db" "$work/here/cold.db"
    head -c 4096 /dev/zero > "$work/here/cold.db-journal"
    cp "$data/empty.db" "$work/here/empty.db"
    : > "$work/here/empty.db-wal"
    : > "$work/here/empty.db-journal"
    state() {
        (cd "$work/here" && find . -printf '%p %i %s %m %u %g %n %y %T@ %C@ %l\n' | sort && sha256sum ./*)
    }
    state > "$work/before"
    for name in "then" cold pair empty; do
        for command in "${five[@]}"; do
            dbck "$command" --recovered "$work/here/$name.db"
            [ "$status" -lt 2 ]
        done
    done
    state > "$work/after"
    diff "$work/before" "$work/after"
}

@test 'a pair that SQLite wrote, whole and damaged, 60 times' {
    needs python3
    python3 tests/logs.py "$DBCK" "$work/pairs" 60 7
}

@test 'each read and each growth of a run over a pair fails in turn' {
    needs python3 cc
    python3 tests/failing.py "$DBCK" "$work/failing"
}

# The calls are made in the folder of the files, as by a user there.
@test 'the logs of a name without a folder lie beside it, and a log may be a link' {
    local words name option
    paired
    mkdir "$work/linked"
    cp "$work/pair.db" "$work/linked"
    cp "$work/pair.db-wal" "$work/linked/log"
    ln -s log "$work/linked/pair.db-wal"
    cd "$work" || return
    for words in check explain map 'stat --all' 'stat --aggregate'; do
        for option in '' --recovered; do
            # shellcheck disable=SC2086
            dbck $words $option "$work/pair.db"
            cp "$work/out" "$work/wanted"
            sed "s|$work/||g" "$work/err" > "$work/notes"
            row "a note of $words $option" grep -q '^dbck: note: pair.db-wal[: ]' "$work/notes"
            for name in pair.db ./pair.db linked/pair.db "$work/linked/pair.db"; do
                # shellcheck disable=SC2086
                dbck $words $option "$name"
                sed -i "s|${name%pair.db}pair.db|pair.db|g" "$work/out" "$work/err"
                sed "s|$work/||g" "$work/wanted" > "$work/named"
                row "$words $option $name" cmp "$work/named" "$work/out"
                row "the notes of $words $option $name" cmp "$work/notes" "$work/err"
            done
        done
    done
    [ "$rows" = 90 ]
}
