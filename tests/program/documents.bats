#!/usr/bin/env bats
# Commands, sessions and numbers of README and the manual: they are taken out of the text, and run as a reader would.
load common

# of_repair FIRST: the commands of docs/REPAIR.md from the line that begins so to the end of its display.
of_repair() {
    awk -v first="    $1" 'index($0, first) == 1 { on = 1 } on && !/^    / { exit } on { print substr($0, 5) }' docs/REPAIR.md > "$work/command"
    [ -s "$work/command" ] || fail "docs/REPAIR.md has no command that begins with $1"
    cat "$work/command"
}

# displays: the displays of the manual, as a terminal shows them; a line that begins with a point is none of theirs.
displays() {
    sed -n '/^\.Bd -literal/,/^\.Ed/{s/\\(dq/"/g;s/\\e/\\/g;p}' docs/dbck.1
}

# of_manual TEXT: the one command of the manual that has this text.
of_manual() {
    displays | grep -F -- "$1" > "$work/command"
    [ "$(wc -l < "$work/command")" = 1 ] || fail "the manual has not one command with $1"
    cat "$work/command"
}

# runs COMMAND: runs it as a reader does, in the folder $work/files; the program is in its path.
runs() {
    mkdir -p "$work/bin"
    ln -sf "$DBCK" "$work/bin/dbck"
    status=0
    (cd "$work/files" && PATH=$work/bin:$PATH exec timeout "$most" sh -c "$1") > "$work/out" 2> "$work/err" < /dev/null 3>&- || status=$?
}

# plain: the text of the manual without its macros, on one line.
plain() {
    sed -E 's/^\.[A-Z][a-z] ?//; s/\\e/\\/g' docs/dbck.1 | tr '\n' ' '
}

@test 'the change that mend prints is made in a copy as the manual says, and as docs/REPAIR.md does' {
    local line from
    mkdir "$work/files"
    for from in docs/dbck.1 docs/REPAIR.md; do
        cp "$data/two-tables.db" "$work/files/copy.db"
        case $from in
            *.1) line=$(of_manual 'seek=1526') ;;
            *) line=$(grep -m 1 '^    printf .*seek=1526 ' "$from") ;;
        esac
        runs "$line"
        row "$from: the command" [ "$status" = 0 ]
        row "$from: the length" [ "$(wc -c < "$work/files/copy.db")" = "$(wc -c < "$data/two-tables.db")" ]
        row "$from: bytes that differ" [ "$(cmp -l "$data/two-tables.db" "$work/files/copy.db")" = '1530   5   7' ]
        exactly 0 $'ok\n' '' check "$work/files/copy.db"
    done
    # The commands of docs/REPAIR.md for all changes, which make none if mend does not end with ok.
    line=$(sed -n '/^### mend/,/^This/s/^    //p' docs/REPAIR.md)
    cp "$data/two-tables.db" "$work/files/copy.db"
    runs "$line"
    row 'all changes' ended 0 '' ''
    exactly 0 $'ok\n' '' check "$work/files/copy.db"
    cp "$data/whole.db" "$work/files/copy.db"
    head -c 2048 /dev/zero >> "$work/files/copy.db"
    put_at "$work/files/copy.db" 28 '\0\0\0\3'
    cp "$work/files/copy.db" "$work/kept.db"
    runs "$line"
    row 'changes that were found' grep -q '^at byte ' "$work/files/mend.txt"
    row 'no change' cmp "$work/kept.db" "$work/files/copy.db"
}

@test 'the commands of docs/REPAIR.md for all changes make each at its byte, also above 4 GiB' {
    printf '#!/bin/sh\nprintf "%%s\\n" "at byte 17 put 02 for 00" "at byte 5000000000 put 00000007 for 00000000" ok\n' > "$work/says"
    chmod 755 "$work/says"
    mkdir "$work/files"
    sparse "$work/files/copy.db" 5000000010
    DBCK=$work/says runs "$(of_repair 'dbck mend copy.db')"
    row 'the commands' ended 0 '' ''
    row 'the length' [ "$(stat -c %s "$work/files/copy.db")" = 5000000010 ]
    row 'what is written low' [ "$(od -An -v -tx1 -j 16 -N 3 "$work/files/copy.db")" = ' 00 02 00' ]
    row 'what is written high' [ "$(od -An -v -tx1 -j 4999999999 -N 6 "$work/files/copy.db")" = ' 00 00 00 00 07 00' ]
    row 'what is not' [ "$(od -An -v -tx1 -j 705032704 -N 4 "$work/files/copy.db")" = ' 00 00 00 00' ]
}

@test 'the commands of docs/REPAIR.md for the header put the bytes of each code in their place' {
    local code at
    mkdir "$work/files"
    while read -r code at; do
        cp "$data/whole.db" "$work/files/copy.db"
        put_at "$work/files/copy.db" "$at" '\0\07'
        expect 1 "$code page 1 *" '' check "$work/files/copy.db"
        runs "$(grep "^    printf .* # $code\$" docs/REPAIR.md)"
        row "the command for $code" cmp "$data/whole.db" "$work/files/copy.db"
    done << 'END'
H01 18
H02 21
H03 46
H04 58
END
    [ "$rows" = 8 ]
}

@test 'a new first page takes the place of the one that is gone as docs/REPAIR.md says' {
    needs sqlite3
    mkdir "$work/files"
    sqlite3 "$work/files/copy.db" 'CREATE TABLE t(a); CREATE INDEX i ON t(a); INSERT INTO t VALUES (1), (2), (zeroblob(9000))'
    sqlite3 "$work/files/copy.db" '.schema --nosys' > "$work/files/schema.sql"
    put_at "$work/files/copy.db" 0 "$(printf '\\0%.0s' {1..4096})"
    runs "$(of_repair size=4096)"
    row 'the commands' ended 0 '*leaf*' ''
    exactly 0 $'ok\n' '' check "$work/files/copy.db"
    row 'the rows' [ "$(sqlite3 "$work/files/copy.db" 'SELECT count(*), sum(length(a)) FROM t')" = '3|9002' ]
}

@test 'a dump has the settings of its database with the commands of docs/REPAIR.md' {
    local name
    needs sqlite3
    mkdir "$work/files"
    sqlite3 "$work/files/copy.db" "PRAGMA encoding = 'UTF-16le'; PRAGMA page_size = 1024; PRAGMA auto_vacuum = 1; PRAGMA user_version = 7;
        PRAGMA application_id = 8; CREATE TABLE t(a); INSERT INTO t(rowid, a) VALUES (5, 'five')"
    runs "$(of_repair "sqlite3 copy.db '.dump --preserve" | head -n 2)"
    row 'the dump' ended_exactly 0 $'COMMIT;\n' ''
    runs "$(of_repair '{ for name in encoding')"
    row 'the new database' ended 0 '' ''
    row 'its settings' diff - <(for name in encoding page_size auto_vacuum user_version application_id; do
        sqlite3 "$work/files/new.db" "PRAGMA $name"
    done) << 'END'
UTF-16le
1024
1
7
8
END
    row 'its rows' [ "$(sqlite3 "$work/files/new.db" 'SELECT rowid, a FROM t')" = '5|five' ]
}

# puts_in NAME: the commands of docs/REPAIR.md put the log of damaged.db, -wal or -journal, into copy.db, and change neither of the two files.
puts_in() {
    mkdir "$work/kept"
    cp "$work/files"/* "$work/kept"
    runs "$(of_repair '  cp damaged.db' | sed "s/-wal/-$1/g")"
    row "the commands for a -$1" ended 0 $'0|*\n' ''
    row "damaged.db beside a -$1" cmp "$work/kept/damaged.db" "$work/files/damaged.db"
    row "its -$1" cmp "$work/kept/damaged.db-$1" "$work/files/damaged.db-$1"
    row "the -$1 of copy.db is done with" [ ! -s "$work/files/copy.db-$1" ]
}

# The definition of the table is damaged, so SQLite reads the schema only as far as the command lets it.
@test 'the commands of docs/REPAIR.md that put a log into a copy leave the damaged file and its log as they are' {
    needs sqlite3
    mkdir "$work/files"
    logged damaged <<< "INSERT INTO t VALUES ('of the log'), ('of the log')"
    mv "$work/damaged.db" "$work/damaged.db-wal" "$work/files"
    put_at "$work/files/damaged.db" "$(grep -abo 'TABLE t(a)' "$work/files/damaged.db" | cut -d : -f 1)" TABEL
    row 'before' [ "$(grep -ac 'of the log' "$work/files/damaged.db")" = 0 ]
    puts_in wal
    row 'what was in the -wal' [ "$(grep -ao 'of the log' "$work/files/copy.db" | wc -l)" = 2 ]
    rm -r "$work/kept" "$work/files"/*
    # The journal has page 2 as it was.
    cp "$data/two-tables.db" "$work/files/damaged.db"
    journal_of "$work/files/damaged.db" <<< 2
    put_at "$work/files/damaged.db" 600 'of a transaction'
    puts_in journal
    row 'what the -journal undoes' cmp "$data/two-tables.db" "$work/files/copy.db"
}

@test 'the commands of docs/REPAIR.md find rows of another table, and put the right one of several rows with one key in place' {
    needs sqlite3
    mkdir "$work/files"
    sqlite3 "$work/files/new.db" "CREATE TABLE invoice(id INTEGER PRIMARY KEY, total); CREATE TABLE customer(id INTEGER PRIMARY KEY, name);
        INSERT INTO invoice VALUES (1, 'customer 1'), (7, 'total 7'), (9, 'total 9'), (1234, 'another total');
        INSERT INTO customer VALUES (1, 'customer 1'), (7, 'customer 7');
        CREATE TABLE t(a, b); INSERT INTO t(rowid, a, b) VALUES (5, 'five', 5), (6, 'six', 6)"
    sqlite3 "$work/files/replaced.db" "CREATE TABLE invoice(id INTEGER PRIMARY KEY, total);
        INSERT INTO invoice VALUES (7, 'old total 7'), (9, 'total 9'), (1234, 'total 1234');
        CREATE TABLE t(a, b); INSERT INTO t(rowid, a, b) VALUES (5, 'FIVE', 55)"
    runs "$(of_repair '   sqlite3 new.db "SELECT rowid, * FROM invoice INTERSECT')"
    row 'the rows of another table' ended_exactly 0 $'1|1|customer 1\n' ''
    runs "$(of_repair "   sqlite3 new.db \"ATTACH 'replaced.db'")"
    row 'the rows that are not in new.db' ended_exactly 0 $'7|7|old total 7\n1234|1234|total 1234\n' ''
    row 'the rows of new.db' diff - <(sqlite3 "$work/files/new.db" 'SELECT * FROM invoice; SELECT * FROM customer') << 'END'
1|customer 1
7|total 7
9|total 9
1234|total 1234
1|customer 1
7|customer 7
END
    runs "sqlite3 new.db \"ATTACH 'replaced.db' AS more; $(grep -o 'REPLACE INTO main\.t(.* FROM more\.t ' docs/REPAIR.md)\""
    row 'a table without a key' ended_exactly 0 '' ''
    row 'its rows' [ "$(sqlite3 "$work/files/new.db" 'SELECT rowid, a, b FROM t')" = $'5|FIVE|55\n6|six|6' ]
}

# Row 17 is in the table already; 19 has another number of columns, and 20 is of another page.
@test 'the commands of docs/REPAIR.md get rows from lost_and_found, and neither replace nor delete those that are not of another table' {
    needs sqlite3
    mkdir "$work/files"
    sqlite3 "$work/files/new.db" "CREATE TABLE invoice(id INTEGER PRIMARY KEY, total);
        INSERT INTO invoice VALUES (1, 'customer 1'), (2, 'total 14 of the invoice'), (3, 'old customer 1'), (17, 'total of row 17'), (33, 'customer 33');
        CREATE TABLE lost_and_found(rootpgno, pgno, nfield, id, c0, c1, c2);
        INSERT INTO lost_and_found VALUES (7, 7, 2, 17, NULL, 'total 119 of the invoice', NULL), (7, 7, 2, 18, NULL, 'total 126 of the invoice', NULL),
            (7, 7, 3, 19, NULL, 'nineteen', 19), (8, 8, 2, 20, NULL, 'twenty', NULL);
        CREATE TABLE t(a, b); INSERT INTO t(rowid, a, b) VALUES (17, 'a', 'b')"
    runs "$(of_repair 'sqlite3 new.db "SELECT rootpgno')"
    row 'what is there' ended_exactly 0 $'7|2|2|17|18||total 126 of the invoice\n7|3|1|19|19||nineteen\n8|2|1|20|20||twenty\n' ''
    runs "$(of_repair 'sqlite3 new.db "DELETE FROM invoice')"
    row 'the commands' ended_exactly 0 '' ''
    row 'the rows' diff - <(sqlite3 "$work/files/new.db" 'SELECT * FROM invoice') << 'END'
2|total 14 of the invoice
3|old customer 1
17|total of row 17
18|total 126 of the invoice
END
    runs "sqlite3 new.db \"$(grep -o 'INSERT OR [A-Z]* INTO t(.* SELECT id, c0, c1 ' docs/REPAIR.md) FROM lost_and_found WHERE nfield = 2\""
    row 'a table without a key' ended_exactly 0 '' ''
    row 'its rows' [ "$(sqlite3 "$work/files/new.db" 'SELECT rowid, a, b FROM t')" = $'17|a|b\n18||total 126 of the invoice\n20||twenty' ]
    runs "$(of_repair 'sqlite3 new.db "DROP TABLE')"
    row 'the tables that are left' [ "$(sqlite3 "$work/files/new.db" 'SELECT name FROM sqlite_schema')" = $'invoice\nt' ]
}

# The root of the table is page 7, and that of its index page 8.
@test 'the command of docs/REPAIR.md for a root page changes that of the table, and of nothing that belongs to it' {
    needs sqlite3
    mkdir "$work/files"
    sqlite3 "$work/files/copy.db" "CREATE TABLE a(x); CREATE TABLE b(x); CREATE TABLE c(x); CREATE TABLE d(x); CREATE TABLE e(x);
        CREATE TABLE invoice(id INTEGER PRIMARY KEY, total); CREATE INDEX by_total ON invoice(total); INSERT INTO invoice VALUES (1, 'one');
        PRAGMA writable_schema = ON; UPDATE sqlite_schema SET rootpage = 3 WHERE name = 'invoice'"
    expect 1 '*R03 *' '' check "$work/files/copy.db"
    runs "$(of_repair 'table=invoice root=7')"
    row 'the command' ended_exactly 0 '' ''
    row 'the root pages' diff - <(sqlite3 "$work/files/copy.db" 'SELECT name, rootpage FROM sqlite_schema') << 'END'
a|2
b|3
c|4
d|5
e|6
invoice|7
by_total|8
END
    exactly 0 $'ok\n' '' check "$work/files/copy.db"
    row 'the rows' [ "$(sqlite3 "$work/files/copy.db" 'SELECT * FROM invoice')" = '1|one' ]
}

# Page 3 is the trunk of the freelist, and page 4 its leaf.
@test 'the command of docs/REPAIR.md on lost_and_found deletes the rows of the freelist, and no others' {
    needs sqlite3
    mkdir "$work/files"
    sqlite3 "$work/files/copy.db" 'CREATE TABLE t(a); CREATE TABLE u(a); CREATE TABLE v(a); DROP TABLE u; DROP TABLE v'
    sqlite3 "$work/files/new.db" 'CREATE TABLE lost_and_found(rootpgno, pgno); INSERT INTO lost_and_found VALUES (1, 1), (2, 2), (4, 4), (4, 4)'
    runs "$(of_repair 'dbck stat --all')"
    row 'the command' ended 0 '' ''
    row 'what is left' [ "$(sqlite3 "$work/files/new.db" 'SELECT pgno FROM lost_and_found')" = $'1\n2' ]
}

# Sixty-four pages of 1024 bytes, each but the first a leaf of a table that is zero else.
@test 'the counts of pages by which docs/REPAIR.md tells the page size halve beyond it' {
    local k
    mkdir "$work/files"
    printf 'SQLite format 3\0' > "$work/files/copy.db"
    for k in {1..63}; do put_at "$work/files/copy.db" $((1024 * k)) '\r'; done
    truncate -s 65536 "$work/files/copy.db"
    runs "$(of_repair 'for size in')"
    row 'the counts' ended_exactly 0 $'512 63\n1024 63\n2048 31\n4096 15\n8192 7\n16384 3\n32768 1\n65536 0\n' ''
}

@test 'a file that was copied as text is told and undone as the manual says' {
    needs perl
    mkdir "$work/files"
    perl -pe 's/\n/\r\n/g' "$data/two-tables.db" > "$work/files/damaged.db"
    row 'the file differs' eval "! cmp -s '$data/two-tables.db' '$work/files/damaged.db'"
    runs "$(of_manual 'wc -c')"
    row 'the line feeds' ended 0 $'[1-9]*\n' ''
    mv "$work/out" "$work/feeds"
    runs "$(of_manual 'grep -ac')"
    row 'the same number' cmp "$work/feeds" "$work/out"
    runs "$(of_manual 'perl ')"
    row 'the command' ended 0 '' ''
    row 'the file' cmp "$data/two-tables.db" "$work/files/copy.db"
    # Of a file that was not, the numbers differ.
    cp "$data/two-tables.db" "$work/files/damaged.db"
    runs "$(of_manual 'grep -ac')"
    row 'another number' eval "! cmp -s '$work/feeds' '$work/out'"
}

@test 'a file that was converted as text is told and undone as the manual says' {
    needs iconv
    mkdir "$work/files"
    iconv -f latin1 -t utf8 "$data/whole.db" > "$work/files/damaged.db"
    row 'the file differs' eval "! cmp -s '$data/whole.db' '$work/files/damaged.db'"
    runs "$(of_manual 'iconv -f utf8 -t utf8')"
    row 'no error' ended 0 '' ''
    runs "$(displays | grep '^iconv .*copy.db')"
    row 'the command' ended 0 '' ''
    row 'the file' cmp "$data/whole.db" "$work/files/copy.db"
    cp "$data/whole.db" "$work/files/damaged.db"
    runs "$(of_manual 'iconv -f utf8 -t utf8')"
    row 'an error' ended 1 '' 'iconv: *'
}

@test 'the commands of README and the manual for a database in use check a copy that has what is in the -wal' {
    local lines from
    needs sqlite3
    mkdir "$work/files"
    for from in README.md docs/dbck.1; do
        rm -f "$work/files"/*
        # Of the page size of new databases: SQLite could not write another one's pages into it.
        logged live 4096 <<< 'INSERT INTO t VALUES (1), (2), (3)'
        mv "$work/live.db" "$work/live.db-wal" "$work/files"
        rm "$work/made.db"*
        case $from in
            README.md) lines=$(sed -n '/^## A database in use/,/^## A damaged/s/^    //p' README.md) ;;
            *) lines=$(displays | sed -n '/^sqlite3 .*\.backup/,/^\.Ed/{/^\.Ed/!p}') ;;
        esac
        runs "$lines"
        row "$from: the commands" ended 0 $'ok\n' ''
        row "$from: the rows of the copy" [ "$(sqlite3 "$work/files/copy.db" 'SELECT count(*) FROM t')" = 3 ]
        row "$from: the rows of the database" [ "$(sqlite3 "$work/files/live.db" 'SELECT count(*) FROM t')" = 3 ]
    done
}

@test 'a first page of a schema that needs more takes the place of none' {
    needs sqlite3
    mkdir "$work/files"
    sqlite3 "$work/files/copy.db" "$(printf 'CREATE TABLE t%d(a_column_of_a_long_name, another_column_of_a_long_name);' {1..80})"
    sqlite3 "$work/files/copy.db" '.schema --nosys' > "$work/files/schema.sql"
    put_at "$work/files/copy.db" 0 "$(printf '\\0%.0s' {1..4096})"
    cp "$work/files/copy.db" "$work/kept.db"
    runs "$(of_repair size=4096)"
    row 'the commands' ended 1 '' '*'
    row 'copy.db' cmp "$work/kept.db" "$work/files/copy.db"
}

@test 'the command of docs/REPAIR.md on lost_and_found goes by the page of a row, and not by that of its root' {
    needs sqlite3
    mkdir "$work/files"
    sqlite3 "$work/files/copy.db" 'CREATE TABLE t(a); CREATE TABLE u(a); CREATE TABLE v(a); DROP TABLE u; DROP TABLE v'
    sqlite3 "$work/files/new.db" 'CREATE TABLE lost_and_found(rootpgno, pgno); INSERT INTO lost_and_found VALUES (2, 4), (4, 2)'
    runs "$(of_repair 'dbck stat --all')"
    row 'the command' ended 0 '' ''
    row 'what is left' [ "$(sqlite3 "$work/files/new.db" 'SELECT * FROM lost_and_found')" = '4|2' ]
}

@test 'the counts of pages of docs/REPAIR.md are of pages of each kind' {
    local k kind=('\02' '\05' '\012' '\015')
    mkdir "$work/files"
    for k in {1..63}; do put_at "$work/files/copy.db" $((1024 * k)) "${kind[k % 4]}"; done
    truncate -s 65536 "$work/files/copy.db"
    runs "$(of_repair 'for size in')"
    row 'the counts' ended 0 $'512 63\n1024 63\n2048 31\n4096 15\n*' ''
}

# over_many: runs the command of README over many databases, those of the folder $work/files/srv.
over_many() {
    runs "$(sed -n '/^## Many databases/,/^## Why/s/^    //p' README.md | sed "s|/srv|'$work/files/srv'|")"
}

@test 'the command of README over many databases names those that are not ok, and ends with 123' {
    local blank=' '
    needs xargs
    mkdir -p "$work/files/srv/a folder"
    cp "$data/whole.db" "$work/files/srv/sound.db"
    printf 'SQLite format 4\0' > "$work/files/srv/other.db"
    : > "$work/files/srv/empty.db"
    over_many
    row 'all are ok' ended 0 '' ''
    cp "$data/empty.db" "$work/files/srv/a folder/noted.db"
    echo log > "$work/files/srv/a folder/noted.db-wal"
    log_notes "$work/files/srv/a folder/noted.db"
    over_many
    row 'a note' ended_exactly 0 "0 $work/files/srv/a folder/noted.db $wal" ''
    rm "$work/files/srv/a folder"/*
    cp "$data/two-tables.db" "$work/files/srv/a folder/it's two"
    over_many
    row 'one has faults' ended_exactly 123 "1 $work/files/srv/a folder/it's two "$'\n' ''
    head -c 90 "$data/whole.db" > "$work/files/srv/cut.db"
    over_many
    sort -o "$work/out" "$work/out"
    row 'one is refused' diff "$work/out" - << END
1 $work/files/srv/a folder/it's two$blank
3 $work/files/srv/cut.db dbck: note: $work/files/srv/cut.db is not checked
dbck: E1 file is shorter than 100 bytes
END
    row 'the status' [ "$status" = 123 ]
    # Whatever its length.
    rm "$work/files/srv/a folder"/* "$work/files/srv/cut.db"
    cp "$data/whole.db" "$work/files/srv/long.db"
    sparse "$work/files/srv/long.db" 2147483648
    over_many
    row 'one is long' ended 0 "0 $work/files/srv/long.db dbck: note: 2147476992 bytes after page 13 are not read, *"$'\n' ''
}

@test 'the command of README over many databases tells a file that cannot be read, and shows no control character of a name' {
    needs xargs
    mkdir -p "$work/files/srv"
    cp "$data/two-tables.db" "$work/files/srv/a\\cb"$'\e[2J\t\177\u009b2J.db'
    over_many
    row 'a name' ended_exactly 123 "1 $work/files/srv/a\\cb?[2J????2J.db "$'\n' ''
    rm "$work/files/srv"/*
    cp "$data/whole.db" "$work/files/srv/x.db"
    printf '#!/bin/sh\necho "head: cannot open x.db" >&2\nexit 1\n' > "$work/bin/head"
    chmod 755 "$work/bin/head"
    over_many
    row 'a file that cannot be read' ended 123 '' $'head: cannot open x.db\n'
}

# session COMMAND WANTED: the command prints what stands below it. One of a file that is not of the repository is not run.
session() {
    [ -f "$work/files/${1##* }" ] || return 0
    runs "$1 2>&1"
    row "$1" diff <(printf %s "$2") "$work/out"
    sessions=$((sessions + 1))
}

@test 'the sessions of README and the manual are what the program prints' {
    local line words='' wanted=''
    sessions=0
    mkdir "$work/files"
    cp "$data"/*.db "$work/files"
    while IFS= read -r line; do
        case $line in
            '$ '*) session "$words" "$wanted" && words=${line#'$ '} wanted= ;;
            '' | .Ed) session "$words" "$wanted" && words= ;;
            *) wanted+=$line$'\n' ;;
        esac
    done < <(sed -n 's/^    //p;/^$/p' README.md && displays)
    row 'how many were run' [ "$sessions" = 9 ]
}

# takes YES|NO WORDS..: whether a command line is taken.
takes() {
    dbck "${@:2}"
    case $1 in
        yes) row "dbck ${*:2}" [ "$status" = 0 ] ;;
        no) row "dbck ${*:2}" [ "$status" = 2 ] ;;
    esac
}

@test 'the numbers that the manual gives of options are those that the program takes' {
    local command least most_taken words=() k
    plain > "$work/plain"
    while read -r command least most_taken; do
        takes yes "$command" --limit "$least" "$data/whole.db"
        takes yes "$command" --limit "$most_taken" "$data/whole.db"
        takes no "$command" --limit "$((least - 1))" "$data/whole.db"
        takes no "$command" --limit "$((most_taken + 1))" "$data/whole.db"
    done < <(grep -oE '[a-z]+ , No from [0-9]+ to [0-9]+' "$work/plain" | sed 's/ , No from / /; s/ to / /')
    row 'three commands' [ "$rows" = 12 ]
    # How many bytes one option has, and how many options there may be.
    read -r least most_taken < <(grep -oE '[0-9]+ to [0-9]+ bytes of two hexadecimal digits each' "$work/plain" | sed 's/ to / /; s/ bytes.*//')
    takes yes stat --with "300=$(printf '00%.0s' $(seq "$least"))" "$data/empty.db"
    takes yes stat --with "300=$(printf '00%.0s' $(seq "$most_taken"))" "$data/empty.db"
    takes no stat --with "300=$(printf '00%.0s' $(seq "$((most_taken + 1))"))" "$data/empty.db"
    takes no stat --with 300= "$data/empty.db"
    most_taken=$(grep -oE 'may be given up to [0-9]+ times' "$work/plain" | tr -cd 0-9)
    for k in $(seq "$most_taken"); do words+=(--with "$((300 + k))=00"); done
    takes yes stat "${words[@]}" "$data/empty.db"
    takes no stat "${words[@]}" --with 400=00 "$data/empty.db"
}

@test 'without --limit there are as many faults and changes as the manual says' {
    local faults changes
    faults=$(plain | sed -nE 's/.*without this option ([0-9]+), and ([0-9]+) for .*/\1 \2/p')
    read -r faults changes <<< "$faults"
    row 'the numbers of the README' grep -q "(default $faults, at most .*" README.md
    row 'and that of mend' grep -q "(default $changes, at most .*" README.md
    with_lost "$work/lost.db" $((faults + 3))
    put_at "$work/lost.db" 28 "\\0\\0\\0\\$(printf %o $((faults + 3)))"
    put_at "$work/lost.db" 24 '\0\0\0\01'
    put_at "$work/lost.db" 92 '\0\0\0\01'
    dbck check "$work/lost.db"
    row 'the faults' [ "$(grep -c '^N01 ' "$work/out")" = "$faults" ]
    row 'the faults that are left out' [ "$(tail -n 1 "$work/out")" = 'more 2' ]
}

@test 'the statuses are those of the help, in its words' {
    dbck --help
    sed -n '/^Exit status:/,$s/^  //p' "$work/out" | grep -oE '[^ ]+' > "$work/wanted"
    row 'seven statuses' [ "$(grep -cx '[0-6]' "$work/wanted")" = 7 ]
    row 'the manual' diff "$work/wanted" \
        <(sed -n '/^\.Sh EXIT STATUS/,/^\.El/{s/^\.It //;s/^\.Nm/dbck/;/^\./!p}' docs/dbck.1 | grep -oE '[^ ]+')
    row 'README' diff "$work/wanted" <(sed -n '/^| Exit status/,/^$/s/^| \([0-6]\) | \(.*\) |$/\1 \2/p' README.md | grep -oE '[^ ]+')
}

@test 'the manual has no fault of its macros' {
    needs groff
    groff -mandoc -ww -z docs/dbck.1 > "$work/out" 2>&1
    row 'groff' [ ! -s "$work/out" ]
}
