#!/usr/bin/env bats
# Notes on logs that lie beside a file and are not read. They come before all else.
load common

# noted: makes noted.db; $wal and $journal are the notes on its logs.
noted() {
    cp "$data/empty.db" "$work/noted.db"
    log_notes "$work/noted.db"
}

@test 'an empty log holds nothing, and a folder is none' {
    noted
    : > "$work/noted.db-journal"
    mkdir "$work/noted.db-wal"
    expect 0 $'ok\n' '' check "$work/noted.db"
}

@test 'each log that is not read has a note, if it has bytes' {
    noted
    echo log > "$work/noted.db-wal"
    : > "$work/noted.db-journal"
    expect 0 $'ok\n' "$wal" check "$work/noted.db"
    echo log > "$work/noted.db-journal"
    for words in check explain 'stat --all'; do
        # shellcheck disable=SC2086
        dbck $words "$work/noted.db"
        row "the notes of $words on two logs" ended 0 '*' "$wal$journal"
    done
    rm "$work/noted.db-wal"
    expect 0 $'ok\n' "$journal" check "$work/noted.db"
}

@test 'a log has its note whatever its mode, its length and its other names' {
    local suffix
    noted
    for suffix in wal journal; do
        echo log > "$work/noted.db-$suffix"
        chmod 444 "$work/noted.db-$suffix"
        ln "$work/noted.db-$suffix" "$work/other-$suffix"
    done
    exactly 0 $'ok\n' "$wal$journal" check "$work/noted.db"
    rm "$work"/*-{wal,journal}
    for suffix in wal journal; do
        sparse "$work/noted.db-$suffix" 4294967296
        chmod 755 "$work/noted.db-$suffix"
    done
    exactly 0 $'ok\n' "$wal$journal" check "$work/noted.db"
}

@test 'a log has its note whoever owns it, whoever may read it, and whenever it was written' {
    local mode suffix
    noted
    for suffix in wal journal; do echo log > "$work/noted.db-$suffix"; done
    for mode in 600 400 200 000; do
        chmod "$mode" "$work"/noted.db-{wal,journal}
        exactly 0 $'ok\n' "$wal$journal" check "$work/noted.db"
    done
    chmod 644 "$work"/noted.db-{wal,journal}
    touch -d '1970-01-01 00:00:00Z' "$work"/noted.db-{wal,journal}
    exactly 0 $'ok\n' "$wal$journal" check "$work/noted.db"
    [ "$(id -u)" = 0 ] || skip 'only root may give files away'
    chown 12345:12345 "$work"/noted.db-{wal,journal} 2> "$work/why" || skip "no other owner here: $(cat "$work/why")"
    exactly 0 $'ok\n' "$wal$journal" check "$work/noted.db"
}

@test 'the log of a name that has no room for the other log has its note' {
    local name
    name=$work/$(printf '%0250d' 0)
    cp "$data/whole.db" "$name" 2> "$work/why" || skip "no name of 250 bytes here: $(cat "$work/why")"
    echo log > "$name-wal"
    log_notes "$name"
    exactly 0 $'ok\n' "$wal" check "$name"
}

@test 'the logs of a link lie beside what it leads to' {
    noted
    echo log > "$work/noted.db-wal"
    echo log > "$work/noted.db-journal"
    mkdir "$work/links"
    ln -s ../noted.db "$work/links/link.db"
    expect 0 $'ok\n' "$wal$journal" check "$work/links/link.db"
}

# A name may begin with its own folder.
@test 'the logs of a link in the folder of the caller lie beside what it leads to' {
    local name
    mkdir "$work/far"
    cp "$data/whole.db" "$work/far/x.db"
    echo log > "$work/far/x.db-wal"
    ln -s far/x.db "$work/link.db"
    log_notes "$(realpath "$work")/far/x.db"
    cd "$work"
    for name in link.db ./link.db .//link.db far/../link.db; do
        exactly 0 $'ok\n' "$wal" check "$name"
        exactly 0 $'ok\n' "${wal/ is not*/ holds nothing that SQLite would read}"$'\n' check --recovered "$name"
    done
}

@test 'a note shows control characters of a name, and what turns text around, by codes' {
    local name=$'two\nlines\xc2\x9b\xe2\x80\xae.db'
    noted
    cp "$data/empty.db" "$work/$name"
    echo log > "$work/$name-wal"
    expect 0 $'ok\n' "${wal/noted/two\\\\x0alines\\\\xc2\\\\x9b\\\\xe2\\\\x80\\\\xae}" check "$work/$name"
}

@test 'the note on a log comes before those on a file that is refused' {
    cp tests/program/logs.bats "$work/text.db"
    echo log > "$work/text.db-wal"
    expect 3 '' "dbck: note: $work/text.db-wal is not read, and may hold changes; *dbck: note: $work/text.db is not checked"$'\n'"dbck: note: $work/text.db begins with *"$'\ndbck: E2 *' check "$work/text.db"
}

@test 'a log beside a database without bytes has a note' {
    local refused="dbck: note: $work/e.db is not checked"$'\n'"dbck: note: $work/e.db has no bytes; to SQLite it is an empty database"$'\n'
    refused+=$'dbck: E1 file is shorter than 100 bytes\n'
    : > "$work/e.db"
    log_notes "$work/e.db"
    echo log > "$work/e.db-journal"
    exactly 3 '' "$journal$refused" check "$work/e.db"
    echo log > "$work/e.db-wal"
    for command in "${five[@]}"; do
        exactly 3 '' "$wal$journal$refused" "$command" "$work/e.db"
    done
    rm "$work/e.db-journal"
    exactly 3 '' "$wal$refused" check "$work/e.db"
}

@test 'a log that is older than its database has its note where it is not read' {
    cp "$data/empty.db" "$work/x.db"
    log_notes "$work/x.db"
    for suffix in wal journal; do
        echo log > "$work/x.db-$suffix"
        touch -d '2001-01-01' "$work/x.db-$suffix"
    done
    exactly 0 $'ok\n' "$wal$journal" check "$work/x.db"
}

@test 'a log that the caller may not look at has a note' {
    cp "$data/whole.db" "$work/x.db"
    log_notes "$work/x.db"
    mkdir -m 000 "$work/closed"
    ln -s closed/log "$work/x.db-wal"
    to_be_nobody
    exactly 0 $'ok\n' "$wal" check "$work/x.db"
    mv "$work/x.db-wal" "$work/x.db-journal"
    exactly 0 $'ok\n' "$journal" check "$work/x.db"
}

@test 'a log that leads to itself has a note' {
    cp "$data/whole.db" "$work/x.db"
    log_notes "$work/x.db"
    ln -s x.db-wal "$work/x.db-wal"
    exactly 0 $'ok\n' "$wal" check "$work/x.db"
    rm "$work/x.db-wal"
    ln -s x.db-journal "$work/x.db-journal"
    exactly 0 $'ok\n' "$journal" check "$work/x.db"
}

@test 'a log that the system cannot look at has a note' {
    local error
    needs python3
    cp "$data/whole.db" "$work/x.db"
    log_notes "$work/x.db"
    while read -r error _; do
        on_disk HIDDEN=x.db-wal "HIDDEN_ERROR=$error"
        exactly 0 $'ok\n' "$wal" check "$work/x.db"
        on_disk HIDDEN=x.db-journal "HIDDEN_ERROR=$error"
        exactly 0 $'ok\n' "$journal" check "$work/x.db"
    done < <(system_errors)
    [ "$rows" -gt 200 ]
    on_disk HIDDEN_LINK=x.db
    exactly 0 $'ok\n' "dbck: note: $work/x.db: whether a log is beside it is not known"$'\n' check "$work/x.db"
}

@test 'the log of a database on standard input, or of an open file, has its note' {
    cp "$data/whole.db" "$work/x.db"
    echo log > "$work/x.db-wal"
    log_notes "$(realpath "$work")/x.db"
    status=0
    "$DBCK" check /dev/stdin < "$work/x.db" > "$work/out" 2> "$work/err" || status=$?
    row '/dev/stdin' ended_exactly 0 $'ok\n' "$wal"
    status=0
    "$DBCK" check /proc/self/fd/7 7< "$work/x.db" > "$work/out" 2> "$work/err" || status=$?
    row '/proc/self/fd/7' ended_exactly 0 $'ok\n' "$wal"
}
