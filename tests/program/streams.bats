#!/usr/bin/env bats
# The two outputs: in one log, on a full disk, and how many writes they take.
load common

# in_one_log FILE WORDS..: rows and faults of a run are in one log in their order, as `> log 2>&1` writes it: the fault of each
# page without a type after its row, and those of pages that are not in use at the end.
in_one_log() {
    status=0
    "$DBCK" "${@:2}" "$1" > "$work/log" 2>&1 < /dev/null 3>&- || status=$?
    dbck_rows "$@" | awk -F '\t' '
        { print }
        $4 == "damaged" { print "P01 page " $3 " item 0 value 0: unknown page type" }
        $4 == "unowned" { lost[++n] = $3 }
        END { for (i = 1; i <= n; i++) print "N01 page " lost[i] " item 0 value 0: page is not in use" }' > "$work/out"
    [ "$status" = 1 ] && cmp "$work/out" "$work/log" && [ "$(wc -l < "$work/err")" -gt 3000 ]
}

# dbck_rows FILE WORDS..: the first output of a run; the second is the file err.
dbck_rows() {
    "$DBCK" "${@:2}" "$1" 2> "$work/err" < /dev/null 3>&-
}

# Pages 200 to 1200 of a table's 1500 are zeros, and 2500 are in no tree: more than 65536 bytes of rows with no fault between.
@test 'in one log rows and faults are in their order' {
    needs sqlite3
    sqlite3 "$work/tall.db" "PRAGMA page_size = 512; CREATE TABLE t (id INTEGER PRIMARY KEY, b);
        WITH RECURSIVE k(n) AS (SELECT 1 UNION ALL SELECT n + 1 FROM k WHERE n < 6000) INSERT INTO t SELECT n, zeroblob(110) FROM k;"
    dd if=/dev/zero of="$work/tall.db" bs=512 seek=199 count=1001 conv=notrunc status=none
    put_at "$work/tall.db" 28 '\0\0\0\0'
    truncate -s $((512 * 4000)) "$work/tall.db"
    row 'rows and faults in one log' in_one_log "$work/tall.db" stat --all
}

@test 'in one log the row of a tree comes after its faults' {
    changed trees 100 '\05'
    put_at "$work/trees.db" 108 '\0\0\0\02'
    truncate -s 1024 "$work/trees.db"
    status=0
    "$DBCK" stat --aggregate "$work/trees.db" > "$work/out" 2>&1 < /dev/null 3>&- || status=$?
    : > "$work/err"
    row 'the row of a tree after its faults' ended 1 $'P01 page 2 item 0 value 0: unknown page type\nsqlite_schema\t-\t2\t-\t0\t0\t400\t0\t-\t1024\n' ''
}

# The last page of an overflow chain names a next one, and the freelist is read after it.
@test 'in one log the rows of the pages in no tree come after the faults in trees' {
    row_of 8 512 "$work/x.db"
    sqlite3 "$work/x.db" 'CREATE TABLE u (b); INSERT INTO u VALUES (zeroblob(3000)); DROP TABLE u;'
    put_at "$work/x.db" 3584 '\0\0\0\01'
    dbck stat --all "$work/x.db"
    row 'the fault' ended 1 $'*\n-\t-\t9\tfreeleaf\t*' $'O01 page 8 item 0 value 1: last overflow page names a next page\n'
    { grep -v $'^-\t-\t' "$work/out" && cat "$work/err" && grep $'^-\t-\t' "$work/out"; } > "$work/wanted"
    "$DBCK" stat --all "$work/x.db" > "$work/log" 2>&1 < /dev/null 3>&- || status=$?
    row 'the rows and the fault' cmp "$work/log" "$work/wanted"
}

@test 'in one log the faults of a tree come after the rows of the trees before it' {
    needs sqlite3
    sqlite3 "$work/x.db" 'PRAGMA page_size = 512; CREATE TABLE a (x); CREATE TABLE b (x); CREATE TABLE c (x);'
    # Page 3, the root of b, is an interior page without a child.
    put_at "$work/x.db" 1024 '\05'
    dbck stat --aggregate "$work/x.db"
    row 'the fault' ended 1 $'sqlite_schema\t*\na\t*\nb\t*\nc\t*\n' $'R01 page 3 item 0 value 0: page number out of range\n'
    { head -n 2 "$work/out" && cat "$work/err" && tail -n 2 "$work/out"; } > "$work/wanted"
    "$DBCK" stat --aggregate "$work/x.db" > "$work/log" 2>&1 < /dev/null 3>&- || status=$?
    row 'the rows and the fault' cmp "$work/log" "$work/wanted"
}

@test 'in one log the notes come after the report' {
    cp "$data/two-owners.db" "$work/x.db"
    printf sevenby >> "$work/x.db"
    for command in "${five[@]}"; do
        "$DBCK" "$command" "$work/x.db" > "$work/log" 2>&1 < /dev/null 3>&- || status=$?
        row "the last line of $command" [ "$(tail -n 1 "$work/log")" = 'dbck: note: 7 bytes after page 13 are not read' ]
    done
}

# to_full_disk WORDS..: runs the program with an output that takes nothing.
to_full_disk() {
    status=0
    "$DBCK" "$@" > /dev/full 2> "$work/err" < /dev/null 3>&- || status=$?
    : > "$work/out"
}

@test 'a report that cannot be written ends with 6' {
    for words in check explain map mend stat 'stat --all' 'stat --aggregate'; do
        # shellcheck disable=SC2086
        to_full_disk $words "$data/whole.db"
        row "$words to a full disk" ended 6 '' "$full$unwritten"
    done
}

@test 'help and a version that cannot be written end with 6' {
    for words in --help --version help 'check --help'; do
        # shellcheck disable=SC2086
        to_full_disk $words
        row "$words to a full disk" ended 6 '' "$full$unwritten"
    done
}

# EIO, EFBIG, EROFS and EDQUOT.
@test 'a report that cannot be written for any reason ends with 6' {
    local error said words
    while read -r error said; do
        on_disk "OUT_ERROR=$error"
        for words in check explain map mend 'stat --all'; do
            # shellcheck disable=SC2086
            exactly 6 '' "dbck: note: standard output: $said"$'\n'"$unwritten" $words "$data/whole.db"
        done
    done << 'END'
5 Input/output error
27 File too large
30 Read-only file system
122 Disk quota exceeded
END
    [ "$rows" = 20 ]
    # The rows that were not taken before a fault are tried once more. The first reason is named.
    on_disk OUT_ERROR=28 OUT_LATER=5
    exactly 6 '' "$full$unwritten" stat "$data/two-owners.db"
}

@test 'a report of a database and its log that cannot be written ends with 6' {
    local words
    paired
    for words in check explain map 'stat --all'; do
        # shellcheck disable=SC2086
        to_full_disk $words --recovered "$work/pair.db"
        row "$words to a full disk" ended 6 '' "dbck: note: $work/pair.db-wal: 1 page of 1 transaction is read from it"$'\n'"$full$unwritten"
    done
}

@test 'of a report of which each write takes a part all is written' {
    local bytes words
    with_lost "$work/x.db" 3001
    for words in 'check --limit 3000' 'explain --limit 3000' map 'stat --all'; do
        as=()
        # shellcheck disable=SC2086
        dbck $words "$work/x.db"
        cp "$work/out" "$work/wanted"
        for bytes in 100 4096 5000 30000; do
            on_disk "OUT_MOST=$bytes"
            # shellcheck disable=SC2086
            dbck $words "$work/x.db"
            row "$words by at most $bytes bytes" cmp "$work/out" "$work/wanted"
            row "the end of $words by at most $bytes bytes" ended 1 '*' '*'
        done
    done
    [ "$rows" = 32 ]
}

# A file may have 2048 bytes here, and the picture has more.
@test 'a report whose end does not fit ends with 6' {
    status=0
    (trap '' XFSZ && ulimit -f 2 && exec "$DBCK" map tests/sqlite/pages-of-65536.db > "$work/cut" 2> "$work/err" < /dev/null 3>&-) || status=$?
    : > "$work/out"
    row 'the end of a picture' ended 6 '' $'dbck: note: standard output: File too large\n'"$unwritten"
    row 'its beginning' [ "$(wc -c < "$work/cut")" = 2048 ]
}

@test 'faults of stat that cannot be written end it with 6' {
    status=0
    "$DBCK" stat "$data/two-owners.db" > "$work/rows" 2> /dev/full < /dev/null 3>&- || status=$?
    row 'faults to a full disk' [ "$status" = 6 ]
    status=0
    "$DBCK" stat "$data/two-owners.db" > "$work/rows" 2>&- < /dev/null 3>&- || status=$?
    row 'faults to a closed output' [ "$status" = 6 ]
}

@test 'of an output that is closed, or open for reading alone, a note says so' {
    local from words
    for from in '&-' "$data/whole.db"; do
        for words in "check $data/two-owners.db" "stat $data/whole.db" --version; do
            status=0
            # shellcheck disable=SC2086
            eval '"$DBCK" $words 1<'"$from"' 2> "$work/err" < /dev/null 3>&-' || status=$?
            : > "$work/out"
            row "$words to $from" ended 6 '' $'dbck: note: standard output: it is not open for writing\n'"$unwritten"
        done
    done
}

# to_closed_pipe WORDS..: runs the program with a pipe that nobody reads, where the signal of that is ignored.
to_closed_pipe() {
    rm -f "$work/pipe"
    mkfifo "$work/pipe"
    exec 7<> "$work/pipe"
    exec 8> "$work/pipe" 7>&-
    status=0
    (trap '' PIPE && exec "$DBCK" "$@" >&8 2> "$work/err" < /dev/null 3>&- 8>&-) || status=$?
    exec 8>&-
    : > "$work/out"
}

@test 'of a pipe that nobody reads a note says so' {
    many_rows=$work/rows.db
    with_lost "$many_rows" 6001
    to_closed_pipe check --limit 6000 "$many_rows"
    row 'a closed pipe' ended 6 '' $'dbck: note: standard output: Broken pipe\n'"$unwritten"
    for words in --help --version; do
        to_closed_pipe "$words"
        row "$words to a closed pipe" ended 6 '' $'dbck: note: standard output: Broken pipe\n'"$unwritten"
    done
}

@test 'notes that cannot be written change no status' {
    cp "$data/empty.db" "$work/noted.db"
    printf 'sevenby' >> "$work/noted.db"
    status=0
    "$DBCK" check "$work/noted.db" > "$work/out" 2> /dev/full < /dev/null 3>&- || status=$?
    : > "$work/err"
    row 'notes to a full disk' ended 0 $'ok\n' ''
}

# written MOST LINE: a line of the shell takes at most so many writes, and at least half of them. The system counts them.
written() {
    local count
    on_terminal "bash '$work/writes' '$work/count' \"$2\""
    count=$(< "$work/count")
    if [ "$count" -gt "$1" ] || [ "$count" -lt $(($1 / 2)) ]; then
        fail "$count writes, of at most $1"
    fi
}

# many_lines: makes lines.db, of which a check has 6000 lines of $bytes bytes, and the script that counts writes.
many_lines() {
    needs_terminal
    [ -r /proc/self/io ] || skip 'there is no /proc/self/io'
    cat > "$work/writes" << 'END'
writes() { while read -r key value; do [ "$key" != syscw: ] || writes=$value; done < /proc/$$/io; }
writes
before=$writes
eval "$2"
writes
echo $((writes - before)) > "$1"
END
    with_lost "$work/lines.db" 6001
    dbck check --limit 6000 "$work/lines.db"
    bytes=$(wc -c < "$work/out")
    [ "$bytes" -gt $((6000 * 40)) ]
}

@test 'lines go to a file by at least 32 KiB at once' {
    many_lines
    row 'writes of 6000 lines to a file' written $((bytes / 32768)) "'$DBCK' check --limit 6000 '$work/lines.db' > '$work/report'"
    row 'writes of 6000 faults to a file' written $((bytes / 32768 + 1)) "'$DBCK' stat '$work/lines.db' 2> '$work/report'"
    large_database
    dbck stat "$work/large.db"
    row 'writes of rows to a file' written $(($(wc -c < "$work/out") / 32768 + 1)) "'$DBCK' stat '$work/large.db' > '$work/report'"
}

@test 'lines go to a terminal one by one, whatever the other output leads to' {
    many_lines
    row 'writes of 6000 lines to a terminal' written 6000 "'$DBCK' check --limit 6000 '$work/lines.db' 2> '$work/report'"
    row 'writes of 6000 lines where both lead to it' written 6000 "'$DBCK' check --limit 6000 '$work/lines.db'"
    row 'writes of 6000 faults where both lead to it' written 6001 "'$DBCK' stat '$work/lines.db'"
    row 'writes of 6000 faults to a terminal' written 6001 "'$DBCK' stat '$work/lines.db' > '$work/report'"
}

@test 'each write of a report ends with a line' {
    needs python3
    with_lost "$work/x.db" 3001
    for words in 'check --limit 300' 'check --limit 1000' 'check --limit 3000' 'explain --limit 3000' map mend 'stat --all'; do
        # shellcheck disable=SC2086
        writes_of stdout $words "$work/x.db" > "$work/writes"
        row "writes of $words" [ -s "$work/writes" ]
        row "whole lines of $words" [ "$(grep -c cut "$work/writes")" = 0 ]
    done
}

@test 'a report of fewer than 32 KiB is one write' {
    local command name
    needs python3
    for name in two-tables two-owners whole; do
        for command in check explain map mend; do
            writes_of stdout "$command" "$data/$name.db" > "$work/writes"
            row "writes of $command of $name" [ "$(cut -d ' ' -f 2 "$work/writes")" = whole ]
        done
    done
}

@test 'a report on a terminal is that in a file' {
    local command name
    needs_terminal
    for name in two-tables two-owners whole; do
        for command in "${five[@]}"; do
            dbck "$command" "$data/$name.db"
            cp "$work/out" "$work/wanted"
            cp "$work/err" "$work/wanted-err"
            on_terminal "'$DBCK' $command '$data/$name.db' 2> '$work/report'"
            row "$command of $name on a terminal" cmp <(tr -d '\r' < "$work/out") "$work/wanted"
            row "the other output of $command of $name" cmp "$work/report" "$work/wanted-err"
            on_terminal "'$DBCK' $command '$data/$name.db' > '$work/report'"
            row "the other output of $command of $name on a terminal" cmp <(tr -d '\r' < "$work/out") "$work/wanted-err"
        done
    done
}

@test 'rows that an output does not take are not lost in silence' {
    needs python3
    row_of 6000 512 "$work/x.db"
    row 'rows to a pipe that is full' python3 - "$DBCK" "$work/x.db" << 'END'
import os, subprocess, sys

near, far = os.pipe()
os.set_blocking(far, False)
run = subprocess.run([sys.argv[1], "stat", sys.argv[2]], stdout=far, stderr=subprocess.PIPE)
if run.returncode != 6 or not run.stderr.startswith(b"dbck: note: standard output: Resource temporarily unavailable\n"):
    sys.exit(repr(run))
END
}

# A packet may have some 8 KiB here, and faults come by at least 32.
@test 'of standard error that takes no faults a note on it says so' {
    needs python3
    with_lost "$work/x.db" 6001
    row 'the note on standard error' python3 - "$DBCK" "$work/x.db" << 'END'
import socket, subprocess, sys

near, far = socket.socketpair(socket.AF_UNIX, socket.SOCK_SEQPACKET)
far.setsockopt(socket.SOL_SOCKET, socket.SO_SNDBUF, 4096)
with subprocess.Popen([sys.argv[1], "stat", sys.argv[2]], stdout=subprocess.DEVNULL, stderr=far) as run:
    far.close()
    first = near.recv(70000)
    while near.recv(70000):
        pass
if run.wait() != 6 or first != b"dbck: note: standard error: Message too long\n":
    sys.exit(f"{run.returncode} {first}")
END
}

@test 'what standard error did not take at first it gets at the end' {
    local note=$'dbck: note: standard error: Resource temporarily unavailable\n'
    # It does not take the fault, twice; and then not the note either.
    on_disk UNTAKEN=2
    expect 6 $'sqlite_schema\t*' "$note$twice$unwritten" stat "$data/two-owners.db"
    on_disk UNTAKEN=3
    expect 6 $'sqlite_schema\t*' "$twice$unwritten" stat "$data/two-owners.db"
}
