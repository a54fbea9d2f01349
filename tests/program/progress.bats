#!/usr/bin/env bats
# Progress, on a terminal alone: it is wiped before another line and at the end.
load common

blank=$'\r                                        \r'

# progress_of_large: makes large.db; $wiped is the progress of a run over it.
progress_of_large() {
    needs_terminal
    large_database
    wiped="dbck: 65536 of $pages pages, 97%"$'\r'$blank
}

@test 'progress is shown on a terminal, and wiped' {
    progress_of_large
    on_terminal "'$DBCK' check '$work/large.db'"
    row 'progress' ended 0 "$wiped"$'ok\r\n' ''
}

@test 'progress is shown beside a report that goes to a file' {
    progress_of_large
    on_terminal "'$DBCK' check '$work/large.db' > '$work/report'"
    row 'progress beside a report' ended 0 "$wiped" ''
    row 'a report beside progress' grep -qx ok "$work/report"
}

@test 'there is no progress with --no-progress' {
    progress_of_large
    on_terminal "'$DBCK' check --no-progress '$work/large.db'"
    row '--no-progress' ended 0 $'ok\r\n' ''
    for command in "${five[@]}"; do
        on_terminal "'$DBCK' $command --no-progress '$work/large.db' > '$work/report'"
        row "$command --no-progress" ended 0 '' ''
    done
    on_terminal "'$DBCK' check --no-progress --recovered '$work/large.db'"
    row '--no-progress --recovered' ended 0 $'ok\r\n' ''
}

@test 'there is no progress where standard error is no terminal' {
    progress_of_large
    on_terminal "'$DBCK' check '$work/large.db' 2> '$work/report'"
    row 'no progress where standard error is a file' ended 0 $'ok\r\n' ''
    expect 0 $'ok\n' '' check "$work/large.db"
}

@test 'progress is wiped before the fault that comes after it' {
    local chain version='H01 page 1 item 18 value 3: file version is not 1 or 2'
    progress_of_large
    put_at "$work/large.db" 18 '\03'
    put_at "$work/large.db" $((512 * pages - 512)) '\0\0\0\01'
    printf 'sevenby' >> "$work/large.db"
    echo log > "$work/large.db-wal"
    on_terminal "'$DBCK' stat '$work/large.db' > '$work/report'"
    chain="O01 page $pages item 0 value 1: last overflow page names a next page"
    row 'progress between faults and notes' ended 1 "dbck: note: $work/large.db-wal is not read, and may hold changes; *$version"$'\r\n'"$wiped$chain"$'\r\n'\
"dbck: note: 7 bytes after page $pages are not read"$'\r\n' ''
}

@test 'progress is wiped before a note, of a file with bytes after its last page, which are no pages' {
    progress_of_large
    truncate -s $((512 * 200000 + 1)) "$work/large.db"
    on_terminal "'$DBCK' check '$work/large.db' > '$work/report'"
    row 'progress before a note' ended 0 "${wiped}dbck: note: $((512 * (200000 - pages) + 1)) bytes after page $pages are not read, $((200000 - pages)) whole pages among them"$'\r\n' ''
}

@test 'progress of a file with other bytes has no number of a run' {
    progress_of_large
    on_terminal "'$DBCK' check --with 100=0d '$work/large.db' 2>&1 > '$work/report'"
    row 'progress of --with' ended 0 "dbck: note: $work/large.db with 1 other byte"$'\r\n'"$wiped" ''
}

@test 'progress is wiped before a fault where both outputs lead to one terminal' {
    progress_of_large
    put_at "$work/large.db" $((512 * pages - 512)) '\0\0\0\01'
    on_terminal "'$DBCK' stat --aggregate '$work/large.db'"
    row 'progress and a fault' ended 1 "*${wiped}O01 page $pages item 0 value 1: *" ''
}

@test 'progress of a database with its log is shown' {
    needs_terminal
    logged x <<< 'INSERT INTO t VALUES (zeroblob(66000 * 508))'
    on_terminal "'$DBCK' check --recovered '$work/x.db' > '$work/report'"
    row 'progress beside a log' ended 0 $'dbck: note: *\r\n'"dbck: 65536 of 660* pages, 99%"$'\r'"$blank" ''
}

# The first change of `mend` makes the file readable. Each run after it reads all of it, and the last text is that of the last run.
@test 'progress of mend is shown also of a file that is refused, with the number of the run' {
    progress_of_large
    put_at "$work/large.db" 0 X
    on_terminal "'$DBCK' mend '$work/large.db' > '$work/report'"
    row 'a change that makes it readable' grep -qx 'at byte 0 put 53514c69746520666f726d6174203300 for 58514c69746520666f726d6174203300' "$work/report"
    row 'progress of a refused file' ended 3 "dbck: run 2, 65536 of $pages pages, 97%"$'\r'"*" ''
}

# A text of a later run may be shorter than that before it.
@test 'progress of mend is wiped before that of each run' {
    local count=200000 run wanted
    needs_terminal
    needs sqlite3
    sqlite3 "$work/x.db" "PRAGMA page_size = 512; CREATE TABLE t(a); INSERT INTO t VALUES (zeroblob(508 * $count))"
    # Two numbers of the header: a change, and then another one.
    put_at "$work/x.db" 21 A
    put_at "$work/x.db" 72 '\01'
    count=$(($(wc -c < "$work/x.db") / 512))
    on_terminal "'$DBCK' mend '$work/x.db' > '$work/report'"
    row 'two changes' [ "$(grep -c '^at byte' "$work/report")" = 2 ]
    tr '\r' '\n' < "$work/out" > "$work/lines"
    for run in '' 'run 2, ' 'run 3, '; do
        for wanted in 65536 131072 196608; do
            row "progress of '$run' at $wanted" grep -qx "dbck: $run$wanted of $count pages, $((100 * wanted / count))%" "$work/lines"
        done
    done
    for run in 2 3; do
        row "blanks before run $run" grep -q '^ *$' <(grep -B 1 "run $run, 65536 " "$work/lines")
    done
}

# It reads some pages of a damaged file twice, so there are 65536 reads.
@test 'progress of mend counts no more pages than there are' {
    needs_terminal
    with_lost "$work/few.db" 65530
    on_terminal "'$DBCK' mend '$work/few.db' > '$work/report'"
    row 'progress of 65530 pages' ended 1 $'dbck: 65530 of 65530 pages, 100%\r'"*" ''
}

# `explain` reads each page that is not in use.
@test 'progress is shown after each 65536 pages, also after the last' {
    needs_terminal
    with_lost "$work/twice.db" 131072
    on_terminal "'$DBCK' explain --limit 1 '$work/twice.db' > '$work/report'"
    row 'progress twice' ended 1 $'dbck: 65536 of 131072 pages, 50%\rdbck: 131072 of 131072 pages, 100%\r'"$blank" ''
}

@test 'progress of pages above 4096 bytes is shown after each 256 MiB' {
    local size count
    needs_terminal
    needs sqlite3
    for size in 8192 16384 32768 65536; do
        rm -f "$work/x.db"
        sqlite3 "$work/x.db" "PRAGMA page_size = $size; CREATE TABLE t (a)"
        put_at "$work/x.db" 28 '\0\0\0\0'
        count=$((268435456 / size))
        sparse "$work/x.db" $((size * (count + 1)))
        on_terminal "'$DBCK' explain --limit 1 '$work/x.db' > '$work/report'"
        row "progress of pages of $size bytes" ended 1 "dbck: $count of $((count + 1)) pages, 99%"$'\r'"$blank" ''
    done
}
