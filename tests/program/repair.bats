#!/usr/bin/env bats
# `docs/both-ways.sh`, which saves the rows of a damaged database: what it refuses, what it leaves alone, and what it says if it cannot write.
load common

# with_sqlite: makes $SQLITE3, of which .recover gives what .dump gives: the sqlite3 of a system may have no .recover. It says so in the file
# `reached`, and waits if there is a file `wait`; it gives no rows if $ROWLESS is set, and no table if $BARE is; $EDITED is done with what it
# gives, by sed; and it ends with the message $FAILING, if that is set. The names in the schema that it reads go into a file `schema`, if
# there is one. If $DUMPLESS is set, .dump gives nothing.
with_sqlite() {
    needs sqlite3 awk realpath
    mkdir "$work/files"
    export SQLITE3=$work/sqlite WORK=$work
    cat > "$SQLITE3" << 'END'
#!/bin/bash
case ${*: -1} in
    'SELECT count(*) FROM sqlite_dbpage') exit ;;
    .recover) ;;
    '.dump --preserve-rowids') [ -n "${DUMPLESS:-}" ] || exec sqlite3 "$@"; exit ;;
    *) exec sqlite3 "$@" ;;
esac
[ ! -e "$WORK/schema" ] || sqlite3 "${@:1:$#-1}" 'PRAGMA writable_schema = ON; SELECT name FROM sqlite_schema' > "$WORK/schema" 2>&1
[ ! -e "$WORK/wait" ] || : > "$WORK/reached"
while [ -e "$WORK/wait" ]; do sleep 0.01; done
sqlite3 "${@:1:$#-1}" '.dump --preserve-rowids' | sed "s/^INSERT INTO/INSERT OR IGNORE INTO/;${ROWLESS:+/^INSERT /d};${BARE:+3,\$d};${EDITED:-}"
[ -z "${FAILING:-}" ] || { echo "$FAILING" >&2 && exit 1; }
END
    chmod 755 "$SQLITE3"
}

# database FILE ROWS: makes a database with a table t of so many rows of 1000 bytes.
database() {
    sqlite3 "$1" "CREATE TABLE t(a INTEGER PRIMARY KEY, b);
        WITH n(i) AS (SELECT 1 UNION ALL SELECT i + 1 FROM n WHERE i < $2) INSERT INTO t SELECT i, randomblob(1000) FROM n"
}

# unfinished FILE: makes a database with half of a transaction: its journal has the pages of before, when the row of t was `before`.
unfinished() {
    needs python3
    sqlite3 "$1" "PRAGMA page_size = 512; CREATE TABLE t(a); INSERT INTO t VALUES ('before')"
    journal_of "$1" <<< '1 2'
    mv "$1-journal" "$work/journal"
    sqlite3 "$1" "UPDATE t SET a = 'half'; INSERT INTO t VALUES ('half 2')"
    mv "$work/journal" "$1-journal"
}

# both_ways WORDS..: runs the script in the folder $work/files, as `dbck` runs the program.
both_ways() {
    status=0
    (cd "$work/files" && exec "${as[@]}" timeout "$most" sh "$root/docs/both-ways.sh" "$@") > "$work/out" 2> "$work/err" < /dev/null 3>&- || status=$?
}

# there: the files of the folder $work/files, and their bytes.
there() {
    (cd "$work/files" && find . -type d && find . -type f -exec sha256sum {} +) | sort
}

# refuses TEXT WORDS..: the script says why it does nothing, and leaves the folder as it is.
refuses() {
    there > "$work/before"
    both_ways "${@:2}"
    row "both-ways.sh ${*:2}" ended 2 '' "$1"
    row "the folder after ${*:2}" diff "$work/before" <(there)
}

# makes OUT WORDS..: the script makes its four files, and says what tables there are.
makes() {
    both_ways "${@:2}"
    row "both-ways.sh ${*:2}" ended 0 "$1" ''
}

# clear_made: takes these files away again.
clear_made() {
    rm "$work/files"/{new,replaced,dumped}.db "$work/files/both-ways.log"
}

# count FILE: how many rows the table t of a database has.
count() {
    [ -s "$1" ] && sqlite3 "$1" 'SELECT count(*) FROM t' 2>&1
}

@test 'both-ways.sh prints its usage, and refuses other words' {
    with_sqlite
    database "$work/files/x.db" 1
    for word in --help -h; do
        both_ways "$word"
        row "$word" ended 0 $'usage: both-ways.sh DAMAGED \[NEW\]\n\nMakes *' ''
    done
    refuses $'usage: *'
    refuses $'usage: *' -x.db
    refuses $'usage: *' x.db new.db other.db
    refuses $'usage: *' ''
    refuses $'both-ways.sh: NEW must not begin with -: ./-new.db\n' x.db -new.db
}

@test 'both-ways.sh wants a file, and a folder for NEW' {
    with_sqlite
    mkdir "$work/files/folder.db"
    database "$work/files/x.db" 1
    refuses $'both-ways.sh: y.db is not a file\n' y.db
    refuses $'both-ways.sh: folder.db is not a file\n' folder.db
    refuses 'mktemp: *' x.db none/new.db
}

@test 'both-ways.sh writes over none of the four files' {
    with_sqlite
    database "$work/files/x.db" 1
    for name in new.db replaced.db dumped.db both-ways.log; do
        echo mine > "$work/files/$name"
        if [ "$name" = new.db ]; then refuses $'both-ways.sh: new.db is there already\n' x.db; fi
        refuses "both-ways.sh: ./$name is there already"$'\n' x.db ./new.db
        rm "$work/files/$name"
    done
    makes $'t: 1 row\n' x.db
    row 'what is there' [ "$(cd "$work/files" && echo *)" = 'both-ways.log dumped.db new.db replaced.db x.db' ]
    refuses $'both-ways.sh: new.db is there already\n' x.db
    refuses $'both-ways.sh: ./replaced.db is there already\n' x.db other.db
    clear_made
    for name in replaced.db dumped.db both-ways.log; do
        refuses "both-ways.sh: NEW must have another name than the files beside it: ./$name"$'\n' x.db "./$name"
    done
}

# SQLite would take it for the log of the new file.
@test 'both-ways.sh makes no file whose -wal or -journal is there already' {
    local end name
    with_sqlite
    database "$work/files/x.db" 1
    for name in new.db replaced.db dumped.db; do
        for end in -wal -journal; do
            echo log > "$work/files/$name$end"
            refuses "both-ways.sh: ./$name$end is there already"$'\n' x.db ./new.db
            rm "$work/files/$name$end"
        done
    done
    row 'what is there' [ "$(cd "$work/files" && echo *)" = x.db ]
}

@test 'both-ways.sh says which sqlite3 it needs' {
    with_sqlite
    database "$work/files/x.db" 1
    SQLITE3=$work/none refuses $'both-ways.sh: there is no sqlite3, or it is older than 3.37\n' x.db
    # Such as these have no pragma_table_list, and no sqlite_dbpage.
    printf '#!/bin/sh\ncase "$*" in *pragma_table_list*) exit 1 ;; esac\n' > "$work/old"
    printf '#!/bin/sh\ncase "$*" in *sqlite_dbpage*) exit 1 ;; esac\n' > "$work/plain"
    chmod 755 "$work/old" "$work/plain"
    SQLITE3=$work/old refuses $'both-ways.sh: there is no sqlite3, or it is older than 3.37\n' x.db
    SQLITE3=$work/plain refuses $'both-ways.sh: this sqlite3 has no .recover; REPAIR.md says how to build one (A sqlite3 with .recover)\n' x.db
}

@test 'both-ways.sh does nothing if a file cannot be copied whole' {
    with_sqlite
    database "$work/files/x.db" 1
    echo log > "$work/files/x.db-wal"
    there > "$work/before"
    chmod 777 "$work/files"
    to_be_nobody
    for name in x.db x.db-wal; do
        chmod 000 "$work/files/$name"
        both_ways x.db
        row "$name cannot be read" ended 2 '' "cp: *"$'\n'"both-ways.sh: $work/files/$name cannot be copied"$'\n'
        chmod 644 "$work/files/$name"
        row "the folder, after $name" diff "$work/before" <(there)
    done
    as=()
    database "$work/files/large.db" 100
    there > "$work/before"
    (ulimit -f 40 && both_ways large.db && ended 2 '' "cp: *"$'\n'"both-ways.sh: $work/files/large.db cannot be copied"$'\n') ||
        fail 'a copy that is cut off'
    row 'the folder, after a copy that is cut off' diff "$work/before" <(there)
}

@test 'both-ways.sh takes its folder away if it is interrupted, and lets nobody else read it before' {
    local signal pid
    with_sqlite
    database "$work/files/x.db" 1
    there > "$work/before"
    umask 022
    for signal in INT TERM HUP; do
        : > "$work/wait"
        (cd "$work/files" && exec env --default-signal=INT sh "$root/docs/both-ways.sh" x.db) > "$work/out" 2> "$work/err" < /dev/null 3>&- &
        pid=$!
        for _ in {1..1000}; do
            [ ! -e "$work/reached" ] || break
            sleep 0.01
        done
        row "$signal: it has come to .recover" rm "$work/reached"
        row "$signal: its folder" [ -n "$(find "$work/files" -name scratch.db)" ]
        row "$signal: what others may read" [ -z "$(find "$work/files" -mindepth 1 ! -name x.db -perm /077)" ]
        kill "-$signal" "$pid"
        rm "$work/wait"
        status=0
        wait "$pid" || status=$?
        row "$signal" ended 130 '' ''
        row "$signal: the folder" diff "$work/before" <(there)
    done
}

@test 'only the owner may read what both-ways.sh makes' {
    with_sqlite
    database "$work/files/x.db" 1
    chmod 600 "$work/files/x.db"
    umask 022
    makes $'t: 1 row\n' x.db
    row 'the modes' [ "$(stat -c %a "$work/files"/{new,replaced,dumped}.db "$work/files/both-ways.log" | tr '\n' ' ')" = '600 600 600 600 ' ]
}

@test 'both-ways.sh reads the logs beside a database, and writes to none of the files' {
    with_sqlite
    logged log <<< 'INSERT INTO t VALUES (1), (2), (3)'
    mv "$work/log.db" "$work/log.db-wal" "$work/files"
    unfinished "$work/files/hot.db"
    database "$work/files/alone.db" 4
    for name in log hot alone; do
        there > "$work/before"
        case $name in
            log) makes $'t: 3 rows\n' log.db ;;
            hot) makes $'t: 1 row\n' hot.db && row 'the row' [ "$(sqlite3 "$work/files/new.db" 'SELECT a FROM t')" = before ] ;;
            alone) makes $'t: 4 rows\n' alone.db ;;
        esac
        clear_made
        row "$name: the folder" diff "$work/before" <(there)
    done
}

@test 'both-ways.sh takes the logs beside what a link leads to' {
    with_sqlite
    logged x <<< 'INSERT INTO t VALUES (1), (2), (3)'
    mkdir "$work/far"
    mv "$work/x.db" "$work/x.db-wal" "$work/far"
    ln -s ../far/x.db "$work/files/link.db"
    echo other > "$work/files/link.db-wal"
    sha256sum "$work/far"/* > "$work/sums"
    makes $'t: 3 rows\n' link.db
    row 'the files' [ "$(cd "$work/far" && echo *)" = 'x.db x.db-wal' ]
    row 'their bytes' sha256sum --quiet -c "$work/sums"
}

@test 'both-ways.sh takes any name of a file' {
    local name
    with_sqlite
    # shellcheck disable=SC2016
    for name in 'two words' "it's \"one\"" $'two\nlines' '$(echo x)' 'a;b' '*' "x', 'y" ' x ' '\x'; do
        mkdir "$work/files/$name"
        database "$work/files/$name/$name.db" 2
        makes $'t: 2 rows\n' "$name/$name.db" "$name/new $name.db"
        row "$name: what is there" [ "$(cd "$work/files/$name" && find . -printf x)" = xxxxxx ]
        row "$name: the rows" [ "$(count "$work/files/$name/new $name.db")" = 2 ]
    done
    mkdir "$work/files/-f"
    database "$work/files/-f/-x.db" 2
    makes $'t: 2 rows\n' ./-f/-x.db ./-f/-new.db
    row 'the rows' [ "$(count "$work/files/-f/-new.db")" = 2 ]
    # With CDPATH `cd` prints where it went.
    mkdir "$work/files/here"
    CDPATH=. makes $'t: 2 rows\n' ./-f/-x.db here/new.db
    row 'the rows with CDPATH' [ "$(count "$work/files/here/new.db")" = 2 ]
}

@test 'both-ways.sh keeps the rowids, and lets no trigger fire' {
    local said
    with_sqlite
    sqlite3 "$work/files/x.db" "CREATE TABLE t(a); INSERT INTO t(rowid, a) VALUES (1, 'a'), (5, 'b'), (9, 'c'); CREATE TABLE log(n);
        CREATE TRIGGER g AFTER INSERT ON t BEGIN INSERT INTO log VALUES (new.rowid); END"
    # The second time all rows come from .dump.
    for said in '' ', 3 more than .recover found'; do
        ROWLESS=${said:+1} makes $'log: 0 rows\nt: 3 rows'"$said"$'\n' x.db
        row "rows and trigger$said" diff - <(sqlite3 "$work/files/new.db" 'SELECT rowid, a FROM t; SELECT name, tbl_name FROM sqlite_schema') << 'END'
1|a
5|b
9|c
t|t
log|log
g|t
END
        clear_made
    done
}

# Row 100 of s was deleted; f has its rows in shadow tables; and `oid` is the one name of the rowid that no column of o has.
@test 'both-ways.sh saves the numbers of AUTOINCREMENT, indexes, views, full-text search, and rowids by their third name' {
    local bare fts='' found=()
    with_sqlite
    sqlite3 "$work/files/x.db" "CREATE TABLE s(i INTEGER PRIMARY KEY AUTOINCREMENT, a); INSERT INTO s VALUES (1, 'a'), (100, 'z');
        DELETE FROM s WHERE i = 100; CREATE INDEX si ON s(a); CREATE VIEW v AS SELECT * FROM s;
        CREATE TABLE o(_rowid_, rowid, b); INSERT INTO o(oid, b) VALUES (5, 'x'), (9, 'y')"
    if sqlite3 "$work/files/x.db" "CREATE VIRTUAL TABLE f USING fts5(t); INSERT INTO f VALUES ('hello'), ('world')" 2> "$work/why"; then
        fts="SELECT count(*) FROM f; SELECT count(*) FROM f WHERE f MATCH 'hello';"
        found=(2 1)
    fi
    # The second time .recover gives no table, and ends with an error.
    for bare in '' 'sql error: database disk image is malformed (11)'; do
        ROWLESS=1 BARE=$bare FAILING=$bare both_ways x.db
        row "the status${bare:+ after an error}" [ "$status" = 0 ]
        sqlite3 "$work/files/new.db" "SELECT * FROM sqlite_sequence; SELECT name FROM sqlite_schema WHERE name IN ('si', 'v') ORDER BY name;
            SELECT oid FROM o; $fts" > "$work/has" 2>&1 || true
        row "what new.db has${bare:+ after an error}" diff <(printf '%s\n' 's|100' si v 5 9 "${found[@]}") "$work/has"
        clear_made
    done
}

# has ROWS QUERY: what a query over new.db gives.
has() {
    row "$2" diff <(printf '%s' "$1") <(sqlite3 "$work/files/new.db" "$2" 2>&1)
}

# The definitions and the queries over them are longer than what a pipe holds.
@test 'both-ways.sh takes any number of tables' {
    local columns table tables=({100..339})
    with_sqlite
    columns=$(printf 'column_%d TEXT, ' {1..6})
    {
        echo 'BEGIN;'
        for table in "${tables[@]}"; do
            echo "CREATE TABLE t$table($columns z); INSERT INTO t$table(z) VALUES (1);"
        done
        echo 'COMMIT;'
    } | sqlite3 "$work/files/x.db"
    makes "$(printf 't%d: 1 row\n' "${tables[@]}")"$'\n' x.db
    row 'the log' [ "$(grep -c locked "$work/files/both-ways.log")" = 0 ]
}

@test 'both-ways.sh keeps the encoding, also if .recover gives no table' {
    local bare encoding
    with_sqlite
    for encoding in UTF-8 UTF-16le UTF-16be; do
        rm -f "$work/files/x.db"
        sqlite3 "$work/files/x.db" "PRAGMA encoding = '$encoding'; CREATE TABLE t(a INTEGER PRIMARY KEY, b); INSERT INTO t VALUES (1, 'é'), (2, 'b')"
        for bare in '' 1; do
            ROWLESS=1 BARE=$bare makes $'t: 2 rows, 2 more than .recover found\n' x.db
            has "$encoding"$'\n1|é\n2|b\n' 'PRAGMA encoding; SELECT * FROM t'
            clear_made
        done
    done
}

@test 'both-ways.sh saves texts with a zero byte' {
    with_sqlite
    sqlite3 "$work/files/x.db" "CREATE TABLE t(a INTEGER PRIMARY KEY, b); INSERT INTO t VALUES (1, 'ab' || char(0) || 'cd'), (2, char(0) || 'e');
        CREATE TABLE u(b); INSERT INTO u SELECT b FROM t; CREATE TABLE w(k TEXT PRIMARY KEY, b) WITHOUT ROWID; INSERT INTO w SELECT a, b FROM t"
    ROWLESS=1 makes $'t: 2 rows, 2 more than .recover found*u: 2 rows, 2 more than .recover found*w: 2 rows, 2 more than .recover found*' x.db
    for table in 'a, hex(b) FROM t' 'rowid, hex(b) FROM u' 'k, hex(b) FROM w'; do
        has $'1|6162006364\n2|0065\n' "SELECT $table"
    done
}

# In scratch.db such a table has a plain definition, of another name.
@test 'both-ways.sh saves tables with generated columns, by .recover and by .dump' {
    local columns=$'1|10|11|12\n2|20|21|22\n'
    with_sqlite
    sqlite3 "$work/files/x.db" "CREATE TABLE g(a INTEGER PRIMARY KEY, b, c AS (b + 1), d AS (b + 2) STORED); INSERT INTO g VALUES (1, 10), (2, 20)"
    : > "$work/schema"
    makes $'g: 2 rows\n' x.db
    row 'the schema of .recover' [ "$(cat "$work/schema")" = '~1' ]
    has "$columns" 'SELECT * FROM g'
    clear_made
    ROWLESS=1 makes $'g: 2 rows, 2 more than .recover found\n' x.db
    has "$columns" 'SELECT * FROM g'
    clear_made
    EDITED='s/(2,20,/(3,30,/' makes $'g: 3 rows, 1 more than .recover found\n' x.db
    has "${columns}"$'3|30|31|32\n' 'SELECT * FROM g'
    clear_made
    DUMPLESS=1 makes $'g: 2 rows\n' x.db
    has "$columns" 'SELECT * FROM g'
    has $'g\n' 'SELECT name FROM sqlite_schema'
}

# Of a table whose definition is damaged .recover would leave out the pages.
@test 'both-ways.sh gives .recover no definition that is damaged' {
    local at
    with_sqlite
    sqlite3 "$work/files/x.db" 'PRAGMA page_size = 512; CREATE TABLE g(a); CREATE TABLE h(x); INSERT INTO h VALUES (1)'
    at=$(grep -obaF 'CREATE TABLE g(' "$work/files/x.db" | head -n 1 | cut -d : -f 1)
    put_at "$work/files/x.db" $((at + 14)) '\01'
    : > "$work/schema"
    both_ways x.db
    row 'the schema of .recover' [ "$(cat "$work/schema")" = h ]
}

@test 'both-ways.sh keeps what .recover found if that ends before its end' {
    with_sqlite
    sqlite3 "$work/files/x.db" "CREATE TABLE t(a INTEGER PRIMARY KEY, b); INSERT INTO t VALUES (1, 'x'), (2, 'y')"
    EDITED="s/(2,'y')/(3,'z')/;/^COMMIT/d" FAILING='sql error: database disk image is malformed (11)' makes '*' x.db
    has $'1|x\n2|y\n3|z\n' 'SELECT * FROM t'
}

@test 'both-ways.sh calls no table lost_and_found that the database has' {
    with_sqlite
    sqlite3 "$work/files/x.db" 'CREATE TABLE lost_and_found_items(a); INSERT INTO lost_and_found_items VALUES (1), (2)'
    makes $'lost_and_found_items: 2 rows\n' x.db
}

@test 'both-ways.sh saves what comes after a definition that ends with a comment' {
    with_sqlite
    sqlite3 "$work/files/x.db" $'CREATE TABLE t(a); CREATE VIEW v AS SELECT a FROM t -- of t\n; CREATE INDEX i ON t(a);
        CREATE TRIGGER g AFTER INSERT ON t BEGIN SELECT 1; END; CREATE VIEW w AS SELECT 2'
    ROWLESS=1 BARE=1 makes $'t: 0 rows\n' x.db
    for name in new replaced; do
        row "$name.db" diff <(printf '%s\n' g i t v w) <(sqlite3 "$work/files/$name.db" 'SELECT name FROM sqlite_schema ORDER BY 1')
    done
}

# .recover and .dump give another row of one key.
@test 'both-ways.sh takes the row of .recover, and says which rows of .dump are not among them' {
    with_sqlite
    sqlite3 "$work/files/x.db" "CREATE TABLE t(a INTEGER PRIMARY KEY, b); INSERT INTO t VALUES (1, 'dump')"
    EDITED="s/'dump'/'recover'/" makes $'t: 1 row; not among them: 1 of dumped.db\n' x.db
    has $'1|recover\n' 'SELECT * FROM t'
    clear_made
    # And .recover may give two.
    EDITED="/'dump'/{p;s/'dump'/'later'/}" makes $'t: 1 row; not among them: 1 of replaced.db\n' x.db
    has $'1|dump\n' 'SELECT * FROM t'
    clear_made
    # Without the index .recover may give two rows of one key of it.
    rm "$work/files/x.db"
    sqlite3 "$work/files/x.db" "CREATE TABLE t(a INTEGER PRIMARY KEY, b); CREATE UNIQUE INDEX u ON t(b); INSERT INTO t VALUES (1, 'x'), (2, 'y')"
    EDITED="s/(2,'y')/(3,'y')/;/INDEX/d" makes $'t: 2 rows*' x.db
    has $'1|x\n3|y\nt\nu\n' 'SELECT * FROM t; SELECT name FROM sqlite_schema ORDER BY 1'
}

# wide COUNT OTHERS: makes x.db, a table t of the columns a, OTHERS, b and so many more, with one row. .recover gives another value of b.
wide() {
    rm -f "$work/files/x.db"
    sqlite3 "$work/files/x.db" "CREATE TABLE t(a $2, b, $(seq -s ', ' -f c%.0f "$1")); INSERT INTO t(a, b) VALUES (1, 'dump')"
}

@test 'both-ways.sh compares tables of as many columns as SQLite takes' {
    local columns
    with_sqlite
    for columns in 400 600 1990; do
        wide "$columns" 'INTEGER PRIMARY KEY'
        EDITED="s/'dump'/'recover'/" makes $'t: 1 row; not among them: 1 of dumped.db\n' x.db
        clear_made
        # Without a rowid that has a name both rows are kept.
        wide "$columns" ', rowid, oid, _rowid_'
        EDITED="s/'dump'/'recover'/" makes $'t: 2 rows, 1 more than .recover found\n' x.db
        clear_made
    done
}

@test 'both-ways.sh takes the greatest number of AUTOINCREMENT' {
    local number
    with_sqlite
    sqlite3 "$work/files/x.db" 'CREATE TABLE s(i INTEGER PRIMARY KEY AUTOINCREMENT); INSERT INTO s VALUES (100)'
    for number in 50 200; do
        EDITED="/sqlite_sequence/s/100/$number/" makes $'s: 1 row\n' x.db
        has "s|$((number > 100 ? number : 100))"$'\n' 'SELECT * FROM sqlite_sequence'
        clear_made
    done
}

# The last page of the schema is none of a tree.
@test 'both-ways.sh says if SQLite cannot read the schema' {
    local last
    with_sqlite
    sqlite3 "$work/files/x.db" "PRAGMA page_size = 512; $(printf 'CREATE TABLE t%d(a, b, c, d, e, f, g, h);' {1..30})"
    last=$(od -An -tx1 -j 108 -N 4 "$work/files/x.db" | tr -d ' ')
    put_at "$work/files/x.db" $((512 * (16#$last - 1))) '\0'
    both_ways x.db
    row 'what it prints' grep -qx 'SQLite cannot read the schema, so that .dump gave nothing' "$work/out"
}

# SQLite rolls the journal back in the copy, and writes that.
@test 'both-ways.sh saves the rows of a file and a journal that may only be read' {
    with_sqlite
    unfinished "$work/files/x.db"
    chmod 444 "$work/files"/*
    chmod 777 "$work/files"
    to_be_nobody
    makes $'t: 1 row\n' x.db
    row 'the row' [ "$(sqlite3 "$work/files/new.db" 'SELECT a FROM t')" = before ]
    row 'the modes' [ "$(stat -c %a "$work/files"/x.db*)" = $'444\n444' ]
}

@test 'both-ways.sh takes any name of a sqlite3, and none of the settings that the caller has for it' {
    with_sqlite
    database "$work/files/x.db" 2
    # It keeps the words of each run that does not leave the settings out.
    # shellcheck disable=SC2016
    printf '#!/bin/bash\n[[ " $* " = *" -init /dev/null "* ]] || echo "$*" >> "$WORK/set"\nexec "$WORK/sqlite" "$@"\n' > "$work/my sqlite"
    chmod 755 "$work/my sqlite"
    SQLITE3="$work/my sqlite" makes $'t: 2 rows\n' x.db
    row 'runs with the settings' [ ! -e "$work/set" ]
}

# whole_or_said FOLDER ROWS: status 0 if and only if each of three databases has its rows; otherwise the last line says what is not whole.
whole_or_said() {
    local name lacking=
    for name in new replaced dumped; do
        [ "$(count "$work/files/$1/$name.db")" = "$2" ] || lacking+=$name
    done
    if [ -z "$lacking" ] && [ "$status" = 0 ]; then
        ended 0 "t: $2 rows"$'\n' ''
    else
        ended 2 '*' "both-ways.sh: not all of $1/new.db, replaced.db and dumped.db could be written or counted: $1/both-ways.log says why"$'\n' &&
            grep -qE 'database or disk is full|disk I/O error|File too large' "$work/files/$1/both-ways.log"
    fi
}

teardown() {
    [ -z "${disk:-}" ] || umount "$disk"
    ends_test
}

# with_disk OPTIONS: an empty disk at $work/files/disk, in place of the one before; skips the test where none can be mounted.
with_disk() {
    [ -z "${disk:-}" ] || umount "$disk"
    disk=
    mkdir -p "$work/files/disk"
    mount -t tmpfs -o "$1" tmpfs "$work/files/disk" 2> "$work/why" || skip "no disk can be mounted: $(head -n 1 "$work/why")"
    disk=$work/files/disk
}

# The copies fit onto each of these disks, and the next file, or one after it, does not; the last one, of some six times the size of the
# database, has room for all.
@test 'both-ways.sh says so if the disk is full' {
    local size said=0
    with_sqlite
    database "$work/files/x.db" 500
    for size in 1400 1700 2100 2500 2800 3100 3300 3500 3700 $(($(wc -c < "$work/files/x.db") * 66 / 10240)); do
        with_disk "size=${size}k"
        both_ways x.db disk/new.db
        row "a disk of $size kB" whole_or_said disk 500
        [ "$status" = 0 ] || said=$((said + 1))
        row 'what is left' [ "$(cd "$disk" && echo *)" = 'both-ways.log dumped.db new.db replaced.db' ]
    done
    row 'disks that were full, and one that was not' [ "$said" -gt 4 -a "$said" -lt 10 -a "$status" = 0 ]
}

@test 'both-ways.sh does nothing if the disk takes too few files' {
    local files
    with_sqlite
    database "$work/files/x.db" 20
    for files in 1 2 4 5 8 10 11 12 13 14 15 16; do
        with_disk "size=9m,nr_inodes=$files"
        both_ways x.db disk/new.db
        if [ "$status" = 0 ]; then
            row "a disk of $files files" whole_or_said disk 20
        else
            row "a disk of $files files" ended 2 '' '*'$'\n'
            row "$files: what is left" [ -z "$(ls -A "$disk")" ]
        fi
    done
    row 'the last one' [ "$status" = 0 ]
}

@test 'both-ways.sh says so if a file may not be as long as it would be' {
    with_sqlite
    # The text of .recover is much longer than these rows.
    mkdir "$work/files/short"
    sqlite3 "$work/files/x.db" "CREATE TABLE t(a INTEGER PRIMARY KEY, b);
        WITH n(i) AS (SELECT 1 UNION ALL SELECT i + 1 FROM n WHERE i < 20000) INSERT INTO t SELECT i, 0 FROM n"
    (ulimit -f 700 && both_ways x.db short/new.db && echo "$status" > "$work/status")
    status=$(cat "$work/status")
    row 'the text' whole_or_said short 20000
    row 'the text: the status' [ "$status" = 2 ]
    # Of pages of 4096 bytes, which the new databases have, each of these rows takes one; in the old one, and in the text, they take half as much.
    mkdir "$work/files/wide"
    sqlite3 "$work/files/y.db" "PRAGMA page_size = 65536; CREATE TABLE t(a INTEGER PRIMARY KEY, b);
        WITH n(i) AS (SELECT 1 UNION ALL SELECT i + 1 FROM n WHERE i < 300) INSERT INTO t SELECT i, printf('%02100d', i) FROM n"
    (ulimit -f 900 && both_ways y.db wide/new.db && echo "$status" > "$work/status")
    status=$(cat "$work/status")
    row 'the databases' whole_or_said wide 300
    row 'the databases: the status' [ "$status" = 2 ]
}

@test 'both-ways.sh says so if a sqlite3 that writes is killed' {
    local name
    with_sqlite
    database "$work/files/x.db" 5
    mv "$SQLITE3" "$work/recover"
    # It ends by a signal once the statements for one database have come, or those that ask it for statements, or where it reads.
    cat > "$SQLITE3" << 'END'
#!/bin/bash
case ${*: -1} in
    ".$KILLED"*) kill -9 $$ ;;
    "$KILLED") cat > "$WORK/lines" && if grep -q "$AT" "$WORK/lines"; then kill -9 $$; fi && exec "$WORK/recover" "$@" < "$WORK/lines" ;;
esac
exec "$WORK/recover" "$@"
END
    chmod 755 "$SQLITE3"
    for name in new replaced dumped; do
        KILLED=$name.db AT='' both_ways x.db
        row "$name.db" ended 2 '*' $'*both-ways.sh: not all of new.db, replaced.db and dumped.db could be written *\n'
        row "$name.db: the log" grep -qx "sqlite3 was killed: $name.db" "$work/files/both-ways.log"
        clear_made
    done
    for name in recover dump; do
        KILLED=$name both_ways x.db
        row ".$name" ended 2 '*' $'*both-ways.sh: not all of new.db, replaced.db and dumped.db could be written *\n'
        row ".$name: the log" grep -qx "sqlite3 was killed: .$name" "$work/files/both-ways.log"
        clear_made
    done
    for name in new replaced; do
        KILLED=$name.db AT="SELECT '-- all'" both_ways x.db
        row "$name.db that is asked" ended 2 '*' $'*both-ways.sh: not all of new.db, replaced.db and dumped.db could be written *\n'
        row "$name.db that is asked: the log" grep -qx "sqlite3 did not give all statements: $name.db" "$work/files/both-ways.log"
        clear_made
    done
}

@test 'both-ways.sh goes on after an error that the damaged file is the reason for, and says so if .recover could not write' {
    local said damaged='sql error: database disk image is malformed (11)'
    with_sqlite
    database "$work/files/x.db" 100
    FAILING=$damaged both_ways x.db
    row "$damaged" ended_exactly 0 $'t: 100 rows\n.recover came to no end: '"$damaged"$'\n' ''
    for said in 'sql error: database or disk is full (13)' 'Error: near line 2: disk I/O error' 'sql error: out of memory (7)'; do
        clear_made
        FAILING=$said both_ways x.db
        row "$said" ended 2 $'t: 100 rows\n.recover came to no end: *\n' 'both-ways.sh: not all of new.db, *'
        row "$said: the log" grep -qxF "$said" "$work/files/both-ways.log"
    done
    clear_made
    # The end is cut off; and a word in the text of a message is none of SQLite.
    truncate -s -20480 "$work/files/x.db"
    FAILING='UNIQUE constraint failed: database or disk is full.a (19)' both_ways x.db
    row 'a file that is cut off' ended 0 $'t: [1-9]* row*; SQLite cannot read this table to its end\n*' ''
}

@test 'both-ways.sh prints of two-tables.db what docs/REPAIR.md says' {
    with_sqlite
    SQLITE3=${SQLITE_RECOVER:-sqlite3}
    "$SQLITE3" :memory: 'SELECT count(*) FROM sqlite_dbpage' > "$work/why" 2>&1 || skip 'this sqlite3 has no .recover'
    cp "$data/two-tables.db" "$work/files/copy.db"
    both_ways copy.db new.db
    row 'what it prints' ended_exactly 0 "$(sed -n '/two-tables.db. of README it prints$/,/^`/s/^    //p' docs/REPAIR.md)"$'\n' ''
}

@test 'both-ways.sh saves the rows that only SQLite itself can read' {
    with_sqlite
    sqlite3 "$work/files/x.db" "CREATE TABLE t(a INTEGER PRIMARY KEY, b); INSERT INTO t VALUES (1, 'x'), (2, 'y');
        CREATE TABLE w(k TEXT PRIMARY KEY, b) WITHOUT ROWID; INSERT INTO w VALUES ('k', 1)"
    ROWLESS=1 DUMPLESS=1 makes $'t: 2 rows, 2 more than .recover found\nw: 1 row, 1 more than .recover found\n' x.db
    has $'1|x\n2|y\nk|1\n' 'SELECT * FROM t; SELECT * FROM w'
}

@test 'both-ways.sh gives .recover a plain definition of the tables that it cannot write, and of no other' {
    with_sqlite
    sqlite3 "$work/files/x.db" "CREATE TABLE named(_rowid_ TEXT, other TEXT, third TEXT);
        CREATE TABLE keyed(value TEXT, name TEXT PRIMARY KEY) WITHOUT ROWID; CREATE TABLE first(name TEXT PRIMARY KEY, value TEXT) WITHOUT ROWID;
        CREATE TABLE apart(a TEXT UNIQUE); CREATE TABLE s(a,b,c,d,e,f AS(a))"
    : > "$work/schema"
    both_ways x.db
    row 'the schema of .recover' diff "$work/schema" <(printf '%s\n' '~1' '~2' first apart sqlite_autoindex_apart_1 s)
}

@test 'both-ways.sh gives the rows that are older than a column its default' {
    with_sqlite
    sqlite3 "$work/files/x.db" "CREATE TABLE g(a INTEGER PRIMARY KEY, b TEXT NOT NULL, c AS (b + 1)); INSERT INTO g VALUES (1, 10);
        ALTER TABLE g ADD COLUMN d TEXT DEFAULT 'seven'"
    : > "$work/schema"
    DUMPLESS=1 makes $'g: 1 row\n' x.db
    row 'the schema of .recover' [ "$(cat "$work/schema")" = '~1' ]
    has $'1|10|11|seven\n' 'SELECT * FROM g'
}

@test 'both-ways.sh takes no key for a rowid that is none' {
    with_sqlite
    sqlite3 "$work/files/x.db" "CREATE TABLE g(a INTEGER PRIMARY KEY DESC, b TEXT NOT NULL, c AS (b + 1)); INSERT INTO g VALUES (100, 10)"
    DUMPLESS=1 makes $'g: 1 row*' x.db
    has $'1|100|10|11\n' 'SELECT rowid, * FROM g'
}

@test 'both-ways.sh says of a row whose overflow pages are damaged that its table cannot be read to its end' {
    with_sqlite
    sqlite3 "$work/files/x.db" "PRAGMA page_size = 512; CREATE TABLE t(a INTEGER PRIMARY KEY, b); INSERT INTO t VALUES (1, 'x'), (2, zeroblob(5000))"
    put_at "$work/files/x.db" 1024 '\0\0377\0377\0377'
    both_ways x.db
    row 'what it prints' grep -q '^t: .*; SQLite cannot read this table to its end$' "$work/out"
}

@test 'both-ways.sh reads the file of the name that it was given, with the line feed at its end' {
    with_sqlite
    sqlite3 "$work/files/x.db" "CREATE TABLE t(a); INSERT INTO t VALUES ('of another file')"
    sqlite3 "$work/files/y.db" "CREATE TABLE t(a); INSERT INTO t VALUES ('of this one')"
    mv "$work/files/y.db" "$work/files/x.db"$'\n'
    mkdir "$work/files/to"$'\n'
    both_ways "x.db"$'\n' "to"$'\n/new.db'
    row 'both-ways.sh' ended 0 $'t: 1 row\n' ''
    row 'the row' [ "$(sqlite3 "$work/files/to"$'\n/new.db' 'SELECT a FROM t')" = 'of this one' ]
}

@test 'both-ways.sh gives a virtual table the name of its definition, so that SQLite opens the new databases' {
    local name
    with_sqlite
    sqlite3 "$work/files/x.db" "CREATE VIRTUAL TABLE f USING fts5(t); INSERT INTO f VALUES ('hello'); CREATE TABLE t(a); INSERT INTO t VALUES (1);
        PRAGMA writable_schema = ON; UPDATE sqlite_schema SET name = 'F~', tbl_name = 'F~' WHERE name = 'f'" 2> "$work/why" || skip "$(cat "$work/why")"
    both_ways x.db
    has $'1\nhello\n' 'SELECT * FROM t; SELECT * FROM f'
    for name in new replaced; do row "$name.db" [ "$(sqlite3 "$work/files/$name.db" 'SELECT * FROM t' 2>&1)" = 1 ]; done
}

@test 'both-ways.sh keeps the order of a key whose columns are in another order' {
    with_sqlite
    sqlite3 "$work/files/x.db" "CREATE TABLE w(a TEXT, b TEXT, c TEXT, d AS (c || 'x'), PRIMARY KEY(b, a)) WITHOUT ROWID; INSERT INTO w VALUES ('a1', 'b1', 'c1')"
    sed -i 's/SELECT name FROM sqlite_schema/SELECT sql FROM sqlite_schema/' "$SQLITE3"
    : > "$work/schema"
    DUMPLESS=1 makes $'w: 1 row\n' x.db
    # .recover takes the columns as they are stored: those of the key first, in its order.
    row 'the schema of .recover' [ "$(cat "$work/schema")" = 'CREATE TABLE "~1"(c1,c0,c2,PRIMARY KEY(c1,c0))WITHOUT ROWID' ]
    has $'a1|b1|c1|c1x\n' 'SELECT * FROM w'
}

@test 'both-ways.sh leaves no plain definition in a table whose root leads into the schema' {
    local leaf
    with_sqlite
    sqlite3 "$work/files/x.db" "PRAGMA page_size = 512; CREATE TABLE g(a, c AS (a + 1)); CREATE TABLE t(a, b, c, d, e);
        $(printf 'CREATE TABLE u%d(aaaaaaaaaaaaaaaaaaaa, bbbbbbbbbbbbbbbbbbb);' {1..12})"
    leaf=$("$DBCK" stat "$work/files/x.db" | awk -F '\t' '$1 == "sqlite_schema" && $4 == "leaf" { print $3; exit }')
    sqlite3 "$work/files/x.db" "PRAGMA writable_schema = ON; UPDATE sqlite_schema SET rootpage = $leaf WHERE name = 't'"
    both_ways x.db
    has '' "SELECT * FROM t WHERE b LIKE '~%'"
}

@test 'both-ways.sh keeps the definition of a table whose name in the schema is damaged' {
    with_sqlite
    sqlite3 "$work/files/x.db" "CREATE TABLE name(a); INSERT INTO name VALUES (1); PRAGMA writable_schema = ON; UPDATE sqlite_schema SET name = 'nam~'"
    : > "$work/schema"
    both_ways x.db
    row 'the schema of .recover' [ "$(cat "$work/schema")" = 'nam~' ]
}

# The definition of t goes on with a command of sqlite3, or with statements. At the latter sqlite3 ends.
@test 'both-ways.sh runs no command that stands behind a definition, and touches no other database' {
    local bare behind
    with_sqlite
    sqlite3 "$work/other.db" 'CREATE TABLE v(a); INSERT INTO v VALUES (1)'
    while read -r behind; do
        rm -f "$work/files/x.db"
        sqlite3 "$work/files/x.db" "CREATE TABLE t(a); INSERT INTO t VALUES (1); PRAGMA writable_schema = ON;
            UPDATE sqlite_schema SET sql = 'CREATE TABLE t(a);' || char(10) || '${behind//\'/\'\'}' || char(10) || '--'"
        # The second time .recover gives no table.
        for bare in '' 1; do
            if [[ $behind = .* ]]; then
                BARE=$bare makes $'t: 1 row*' x.db
            else
                BARE=$bare both_ways x.db
                row "$behind${bare:+, without .recover}" ended 2 '*' $'*both-ways.sh: not all of new.db, *: ./both-ways.log says why\n'
                row "$behind: the log" grep -q '^line [0-9]*: cannot .* in safe mode$' "$work/files/both-ways.log"
            fi
            row "$behind: files" [ "$(cd "$work" && echo run*)" = 'run*' ]
            row "$behind: the other database" [ "$(sqlite3 "$work/other.db" 'SELECT count(*) FROM v')" = 1 ]
            clear_made
        done
    done << END
.shell touch $work/run
.system touch $work/run
.once $work/run
.import /etc/passwd t
.trace $work/run
ATTACH '$work/other.db' AS w; DELETE FROM w.v;
COMMIT; VACUUM INTO '$work/run';
SELECT writefile('$work/run', 'x');
END
    [ "$rows" = 54 ]
}

# What the super-journal names is not there, so that SQLite would delete it with the first copy that it rolls back. Its name has more than 256 bytes.
@test 'both-ways.sh rolls back each copy of a database whose journal names a super-journal that is there, and keeps that' {
    local file super
    with_sqlite
    super=$work/$(printf 'long%.0s' {1..60})/super
    mkdir "${super%/*}"
    unfinished "$work/files/x.db"
    name_super "$work/files/x.db-journal" "$super"
    printf '/none/m.db-journal\0' > "$super"
    there > "$work/before"
    makes $'t: 1 row\n' x.db
    for file in new dumped; do row "$file.db" [ "$(sqlite3 "$work/files/$file.db" 'SELECT a FROM t')" = before ]; done
    clear_made
    row 'the folder' diff "$work/before" <(there)
    row 'the super-journal' cmp "$super" <(printf '/none/m.db-journal\0')
    # With an empty one, or none, SQLite rolls nothing back.
    : > "$super"
    makes $'t: 2 rows\n' x.db
    row 'the rows with an empty one' [ "$(sqlite3 "$work/files/new.db" 'SELECT a FROM t')" = $'half\nhalf 2' ]
    clear_made
    rm "$super"
    makes $'t: 2 rows\n' x.db
    row 'the rows with none' [ "$(sqlite3 "$work/files/new.db" 'SELECT a FROM t')" = $'half\nhalf 2' ]
}

@test 'both-ways.sh keeps rows that break a CHECK, and says how many break another rule' {
    with_sqlite
    sqlite3 "$work/files/x.db" "CREATE TABLE c(a INTEGER PRIMARY KEY, b); INSERT INTO c VALUES (1, 100), (2, -50), (3, 70);
        CREATE TABLE n(a INTEGER PRIMARY KEY, b); INSERT INTO n VALUES (1, 1), (2, NULL); CREATE TABLE s(a INTEGER PRIMARY KEY, b);
        INSERT INTO s VALUES (1, 'text'); PRAGMA writable_schema = ON;
        UPDATE sqlite_schema SET sql = 'CREATE TABLE c(a INTEGER PRIMARY KEY, b CHECK (b >= 0))' WHERE name = 'c';
        UPDATE sqlite_schema SET sql = 'CREATE TABLE n(a INTEGER PRIMARY KEY, b NOT NULL)' WHERE name = 'n';
        UPDATE sqlite_schema SET sql = 'CREATE TABLE s(a INTEGER PRIMARY KEY, b INT) STRICT' WHERE name = 's'"
    makes "c: 3 rows
n: 1 row; SQLite reads 2 rows of it in the damaged file
s: 0 rows; SQLite reads 1 row of it in the damaged file
" x.db
    has $'1|100\n2|-50\n3|70\n' 'SELECT * FROM c'
    clear_made
    ROWLESS=1 makes $'c: 3 rows, 3 more than .recover found\nn: *s: *' x.db
    has $'1|100\n2|-50\n3|70\n' 'SELECT * FROM c'
}

# So the rows of the plain definition cannot be put into the table.
@test 'both-ways.sh keeps the rows of a table if a column of one of them cannot be computed' {
    with_sqlite
    sqlite3 "$work/files/x.db" "CREATE TABLE j(a INTEGER PRIMARY KEY, b); INSERT INTO j VALUES (1, '{\"k\": 1}'), (2, 'x'), (3, '{\"k\": 3}');
        PRAGMA writable_schema = ON; UPDATE sqlite_schema
        SET sql = 'CREATE TABLE j(a INTEGER PRIMARY KEY, b DEFAULT ''that takes room for the name'', k NOT NULL AS (json_extract(b, ''$.k'')))'"
    DUMPLESS=1 makes "j: 0 rows; SQLite reads 3 rows of it in the damaged file
~1: 3 rows of table j, which does not take all of them
" x.db
    has $'1|{"k": 1}\n2|x\n3|{"k": 3}\n' 'SELECT * FROM "~1"'
}

@test 'both-ways.sh saves a table that has the name of a plain definition, and one with a column _ROWID_' {
    with_sqlite
    sqlite3 "$work/files/x.db" "CREATE TABLE \"~2\"(a INTEGER PRIMARY KEY, b); INSERT INTO \"~2\" VALUES (1, 'x'), (5, 'y');
        CREATE TABLE v(a, b AS (a + 1), c DEFAULT 'a text that takes room for the name'); INSERT INTO v(a) VALUES (10);
        CREATE TABLE u(_ROWID_ TEXT, b); INSERT INTO u(rowid, _ROWID_, b) VALUES (7, 'x', 1), (9, 'y', 2)"
    makes $'u: 2 rows\nv: 1 row\n~2: 2 rows\n' x.db
    has $'1|x\n5|y\n10|11\n7|x|1\n9|y|2\n' 'SELECT * FROM "~2"; SELECT a, b FROM v; SELECT rowid, * FROM u'
}

# So SQLite moves no page of the copy when it frees one.
@test 'both-ways.sh gives .recover a database with incremental auto_vacuum in place of a full one' {
    with_sqlite
    sqlite3 "$work/files/x.db" 'PRAGMA auto_vacuum = FULL; CREATE TABLE t(a); INSERT INTO t VALUES (1)'
    sed -i 's/SELECT name FROM sqlite_schema/PRAGMA auto_vacuum/' "$SQLITE3"
    : > "$work/schema"
    makes $'t: 1 row\n' x.db
    row 'auto_vacuum' [ "$(cat "$work/schema")" = 2 ]
}

@test 'both-ways.sh shows no control character of a name or a message' {
    with_sqlite
    sqlite3 "$work/files/x.db" "CREATE TABLE \"a"$'\e'"[31m"$'\n'"b: 9 rows"$'\u9b'"é\"(a)"
    FAILING=$'sql error: \e[1m' both_ways x.db
    row 'what it prints' ended_exactly 0 $'a?[31m?b: 9 rows?é: 0 rows\n.recover came to no end: sql error: ?[1m\n' ''
}
