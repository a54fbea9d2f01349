# Notes: lines on standard error beside the report, which change neither report nor status.
load common

# grown FILE: a sound database, one row of a page and its 3000 overflow pages of 512 bytes: more rows than a pipe holds.
grown() {
    needs sqlite3
    sqlite3 "$1" 'PRAGMA page_size = 512; CREATE TABLE t (b); INSERT INTO t VALUES (zeroblob(1500000));'
}

# noted STATUS TEXT WORDS..: the program ends so, with this text on standard error, to files and where either output is a terminal.
noted() {
    local quoted
    dbck "${@:3}"
    ended "$1" '*' "*"
    printf %s "$2" | cmp - "$work/err" || fail "of dbck ${*:3}: $(show "$work/err")"
    quoted=$(printf ' %q' "${@:3}")
    on_terminal "'$DBCK'$quoted --no-progress > '$work/report'"
    [ "$status" = "$1" ] || fail "status $status where standard error is a terminal"
    printf %s "$2" | cmp - <(tr -d '\r' < "$work/out") || fail "to a terminal, of dbck ${*:3}: $(show "$work/out")"
    on_terminal "'$DBCK'$quoted 2> '$work/report'"
    [ "$status" = "$1" ] || fail "status $status where standard output is a terminal"
    printf %s "$2" | cmp - "$work/report" || fail "to a file beside a terminal, of dbck ${*:3}: $(show "$work/report")"
}

@test 'a sound file that is written while it is read is ok, and a note says so' {
    log_notes "$work/x.db"
    note=$(changed_note "$work/x.db")
    for words in check 'explain --limit 3'; do
        cp "$data/whole.db" "$work/x.db"
        # shellcheck disable=SC2086
        at_first_note "touch -d '2001-01-01 00:00:00.1' '$work/x.db'" $words "$work/x.db"
        ended_exactly 0 $'ok\n' "$wal${note%.}"
    done
    "$DBCK" stat "$work/x.db" > "$work/rows"
    at_first_note "touch -d '2001-01-01 00:00:00.2' '$work/x.db'" stat "$work/x.db"
    ended_exactly 0 "$(cat "$work/rows")"$'\n' "$wal${note%.}"
    at_first_note "touch -d '2001-01-01 00:00:00.3' '$work/x.db'" map "$work/x.db"
    ended 0 "$picture x.db</title>"$'\n*, no fault; *</svg>\n' "$wal${note%.}"
}

@test 'a sound file that is written in the midst of its rows has the note' {
    grown "$work/x.db"
    note=$(changed_note "$work/x.db")
    meanwhile "$work/x.db" touch -d '2001-01-01 00:00:00.1' "$work/x.db"
    ended 0 $'sqlite_schema\t/\t1\tleaf\t*' "${note%.}"
    [ "$(wc -l < "$work/out")" = $(($(wc -c < "$work/x.db") / 512)) ]
}

@test 'a file that is written while it is read has the note also where its rows cannot be written' {
    grown "$work/x.db"
    note=$(changed_note "$work/x.db")
    trap '' PIPE
    # As it fails, the pipe is read no more.
    touched() { touch -d '2001-01-01 00:00:00.1' "$work/x.db" && false; }
    meanwhile "$work/x.db" touched
    ended_exactly 6 s $'dbck: note: standard output: Broken pipe\n'"${note%.}$unwritten"
}

@test 'a file that is written while it is read has the note also where memory is refused after that' {
    needs prlimit
    cp "$data/empty.db" "$work/x.db"
    sparse "$work/x.db" 34359738368
    log_notes "$work/x.db"
    note=$(changed_note "$work/x.db")
    at_first_note "touch -d '2001-01-01 00:00:00.1' '$work/x.db'; prlimit --pid \$pid --as=40000000" check "$work/x.db"
    ended_exactly 5 '' "$wal${note%.}"$'dbck: E9 out of memory\n'
}

@test 'a longer or a shorter file has the note, also where its time stays' {
    log_notes "$work/x.db"
    note=$(changed_note "$work/x.db")
    cp "$data/whole.db" "$work/x.db"
    at_first_note "touch -r '$work/x.db' '$work/time'; printf 'sevenby' >> '$work/x.db'; touch -r '$work/time' '$work/x.db'" check "$work/x.db"
    ended_exactly 0 $'ok\n' "${wal}dbck: note: 7 bytes after page 13 are not read"$'\n'"${note%.}"
    # Cut by a byte: the file has 12 whole pages and states 13.
    cp "$data/whole.db" "$work/x.db"
    at_first_note "touch -r '$work/x.db' '$work/time'; truncate -s -1 '$work/x.db'; touch -r '$work/time' '$work/x.db'" check "$work/x.db"
    ended 1 'H06 page 1 item 0 value 13: file is shorter than its stated size'$'\n*' "${wal}dbck: note: 511 bytes after page 12 are not read"$'\n'"${note%.}"
}

@test 'a file that is replaced, moved away or deleted while it is read was not changed' {
    log_notes "$work/x.db"
    for change in "cp -p '$data/whole.db' '$work/new'; mv '$work/new' '$work/x.db'" "cp '$data/two-owners.db' '$work/new'; mv '$work/new' '$work/x.db'" \
        "mv '$work/x.db' '$work/y.db'" "rm '$work/x.db'" "rm '$work/x.db'; mkdir '$work/x.db'" "rm '$work/x.db'; ln -s '$root/$data/two-owners.db' '$work/x.db'"; do
        rm -rf "$work/x.db"
        cp "$data/whole.db" "$work/x.db"
        at_first_note "$change" check "$work/x.db"
        ended_exactly 0 $'ok\n' "$wal" || fail "after $change"
    done
}

@test 'a file of which only the log, the access time, the mode or a name changes was not changed' {
    cp "$data/whole.db" "$work/x.db"
    log_notes "$work/x.db"
    # So that the change is in another second than the copy.
    sleep 1
    at_first_note "echo more >> '$work/x.db-wal'; echo log > '$work/x.db-journal'; touch -a '$work/x.db'
        chmod 600 '$work/x.db'; ln '$work/x.db' '$work/y.db'" \
        check "$work/x.db"
    ended 0 $'ok\n' "$wal*"
    if grep changed "$work/err"; then
        fail 'it has the note'
    fi
}

@test 'a refused file that is written while it is read has the note too, before the error' {
    cp "$data/whole.db" "$work/x.db"
    put_at "$work/x.db" 16 '\03'
    log_notes "$work/x.db"
    note=$(changed_note "$work/x.db")
    for command in "${five[@]}"; do
        out=
        [ "$command" != mend ] || out=$'at byte 16 put 0200 for 0300\n    page 1 at byte 0\nok\n'
        at_first_note "touch '$work/x.db'" "$command" "$work/x.db"
        ended_exactly 3 "$out" "${wal}dbck: note: $work/x.db is not checked"$'\n'"${note%.}"$'dbck: E3 page size is not valid\n'
    done
}

@test 'a file that is emptied after it was opened has no bytes, and was changed' {
    log_notes "$work/x.db"
    note=$(changed_note "$work/x.db")
    for command in "${five[@]}"; do
        cp tests/sqlite/pages-of-65536.db "$work/x.db"
        at_first_note "truncate -s 0 '$work/x.db'" "$command" "$work/x.db"
        ended_exactly 3 '' "${wal}dbck: note: $work/x.db is not checked"$'\n'"dbck: note: $work/x.db has no bytes; to SQLite it is an empty database"$'\n'"${note%.}"$'dbck: E1 file is shorter than 100 bytes\n'
    done
}

# version: the fault of a database whose file version is 3.
version=$'H01 page 1 item 18 value 3: file version is not 1 or 2\n'
letters='dbck: note: the bytes of the first page from 80 on are well-formed UTF-8: perhaps converted as text (see the manual)'$'\n'
lines='dbck: note: every line feed of the first page comes after a carriage return: perhaps copied as text (see the manual)'$'\n'
rest=$'dbck: note: 7 bytes after page 1 are not read\n'

# copied HEX: a database with a fault and no whole pages, whose first page ends with these bytes, after seven letters of two bytes.
copied() {
    changed copied 18 '\03'
    printf 'sevenby' >> "$work/copied.db"
    put_at "$work/copied.db" 300 '\0303\0251\0303\0251\0303\0251\0303\0251\0303\0251\0303\0251\0303\0251'
    put_at "$work/copied.db" $((512 - ${#1} / 2)) "$(sed 's/../\\x&/g' <<< "$1")"
}

@test 'a page that was converted as text may end in the midst of a letter' {
    # Letters of two, three and four bytes, whole and cut after each byte.
    while read -r hex; do
        copied "$hex"
        exactly 1 "$version" "$letters$rest" check "$work/copied.db" || fail "at the end: $hex"
    done << 'END'
c3a9
c3
e282ac
e282
e2
f09f9880
f09f98
f09f
f0
END
}

@test 'a page with a byte that no letter of UTF-8 has in that place was not converted' {
    while read -r hex; do
        copied "$hex"
        exactly 1 "$version" "$rest" check "$work/copied.db" || fail "at the end: $hex"
    done << 'END'
c3414141
e282414141
a9414141
ff414141
c0afafaf
f888808080
c341
e28241
41a9
ff
c0af
END
}

# The header is read first, and then the page with it.
@test 'a page that was not copied as text has no note, also where its header alone looks as if it was' {
    local at bytes
    while read -r at bytes; do
        # After the header come a line feed alone, and a byte that is of no letter.
        copied ff
        put_at "$work/copied.db" 200 '\n'
        put_at "$work/copied.db" "$at" "$bytes"
        expect 1 "$version*" "$rest" check "$work/copied.db"
    done << 'END'
72 \r\n\r\n\r\n\r\n
80 \0303\0251\0303\0251\0303\0251\0303\0251
END
    [ "$rows" = 2 ]
}

@test 'the notes on copied files come for all commands, and not for a sound file or one of whole pages' {
    copied c3
    for command in explain map stat; do
        expect 1 '*' "*$letters$rest" "$command" "$work/copied.db"
    done
    truncate -s 512 "$work/copied.db"
    expect 1 "$version" '' check "$work/copied.db"
    copied c3
    put_at "$work/copied.db" 18 '\01'
    exactly 0 $'ok\n' "$rest" check "$work/copied.db"
}

@test 'a refused file is looked at by its header, whose last letter may be cut' {
    # The header of a refused file is all that is read of it: the letters are in its last 20 bytes.
    for cut in '' '\0303' '\0342\0202' '\0360\0237\0230'; do
        changed refused 16 '\03'
        put_at "$work/refused.db" 80 '\0303\0251\0303\0251\0303\0251\0303\0251aaaaaaaaaaaa'
        [ -z "$cut" ] || put_at "$work/refused.db" $((100 - ${#cut} / 5)) "$cut"
        for command in check explain map stat; do
            exactly 3 '' "dbck: note: $work/refused.db is not checked"$'\n'"$letters"$'dbck: E3 page size is not valid\n' "$command" "$work/refused.db"
        done
        # With another page size `mend` reads the page, and all of that is looked at.
        expect 3 $'at byte 16 put 0200 for 0300\n*' "dbck: note: $work/refused.db is not checked"$'\n*dbck: E3 page size is not valid\n' mend "$work/refused.db"
        # With a byte behind the header that is of no letter it was not copied as text.
        put_at "$work/refused.db" 300 '\0377'
        expect 3 $'at byte 16 put 0200 for 0300\n*' "dbck: note: $work/refused.db is not checked"$'\ndbck: E3 page size is not valid\n' mend "$work/refused.db"
    done
    # Eight bytes above 127, and no fewer.
    put_at "$work/refused.db" 80 'aa\0303\0251\0303\0251\0303\0251'
    put_at "$work/refused.db" 97 'aaa'
    exactly 3 '' "dbck: note: $work/refused.db is not checked"$'\n'$'dbck: E3 page size is not valid\n' check "$work/refused.db"
    # Lines, and what a file begins with that is no database.
    changed refused 0 '\r\n\r\n\r\n\r\n'
    exactly 3 '' "dbck: note: $work/refused.db is not checked"$'\n'"${lines}dbck: note: $work/refused.db begins with 0d 0a 0d 0a 0d 0a 0d 0a 6f 72 6d 61 74 20 33 00  ........ormat 3."$'\ndbck: E2 file is not a SQLite 3 database\n' check "$work/refused.db"
    put_at "$work/refused.db" 6 'a'
    exactly 3 '' "dbck: note: $work/refused.db is not checked"$'\n'"dbck: note: $work/refused.db begins with 0d 0a 0d 0a 0d 0a 61 0a 6f 72 6d 61 74 20 33 00  ......a.ormat 3."$'\ndbck: E2 file is not a SQLite 3 database\n' check "$work/refused.db"
}

taken='dbck: note: the first page has 0a where 0d belongs, and no 0d: perhaps carriage returns were taken away (see the manual)'$'\n'

# no_returns: a database of one page in which each carriage return became a line feed.
no_returns() {
    changed returned 100 '\012'
    tr '\r' '\n' < "$work/returned.db" > "$work/x.db"
}

@test 'a page without carriage returns was copied as text if it begins with a line feed' {
    needs python3
    no_returns
    for command in check explain map stat; do
        expect 1 '*' "*$taken" "$command" "$work/x.db"
    done
    # Also where it is longer than its pages, or cut; and the ends of lines and letters are looked at first.
    printf 'sevenby' >> "$work/x.db"
    expect 1 '*' "$taken$rest" check "$work/x.db"
    put_at "$work/x.db" 300 '\0303\0251\0303\0251\0303\0251\0303\0251'
    expect 1 '*' "$letters$rest" check "$work/x.db"
    # Also where the page comes from a log.
    no_returns
    journal_of "$work/x.db" <<< 1
    expect 1 '*' "dbck: note: $work/x.db-journal: 1 page is read from it; the database had 1 page"$'\n'"$taken" check --recovered "$work/x.db"
    rm "$work/x.db-journal"
    # A carriage return anywhere on the page, or another type, and it was not.
    put_at "$work/x.db" 511 '\r'
    expect 1 '*' '' check "$work/x.db"
    no_returns
    put_at "$work/x.db" 100 '\02'
    expect 1 '*' '' check "$work/x.db"
}

@test 'bytes after the last page are counted, in each command' {
    # Whole.db has 13 pages of 512 bytes.
    while read -r more text; do
        cp "$data/whole.db" "$work/x.db"
        sparse "$work/x.db" $((6656 + more))
        text=$(printf "dbck: note: $text" 13)
        exactly 0 $'ok\n' "$text"$'\n' check "$work/x.db"
        exactly 0 $'ok\n' "$text"$'\n' explain "$work/x.db"
        expect 0 "$picture x.db</title>"$'\n*</svg>\n' "$text"$'\n' map "$work/x.db"
        "$DBCK" stat "$data/whole.db" > "$work/rows"
        exactly 0 "$(cat "$work/rows")"$'\n' "$text"$'\n' stat "$work/x.db"
        exactly 0 "$(cat "$work/rows")"$'\n' "$text"$'\n' stat --all "$work/x.db"
    done << 'END'
1 1 byte after page %d is not read
2 2 bytes after page %d are not read
511 511 bytes after page %d are not read
512 512 bytes after page %d are not read, 1 whole page among them
1023 1023 bytes after page %d are not read, 1 whole page among them
1024 1024 bytes after page %d are not read, 2 whole pages among them
51201 51201 bytes after page %d are not read, 100 whole pages among them
5000000000 5000000000 bytes after page %d are not read, 9765625 whole pages among them
END
}

@test 'what is left after the pages of a short file is counted as well' {
    cp "$data/whole.db" "$work/x.db"
    truncate -s 6655 "$work/x.db"
    expect 1 $'H06 page 1 item 0 value 13: file is shorter than its stated size\n*' $'dbck: note: 511 bytes after page 12 are not read\n' check "$work/x.db"
    cp tests/sqlite/pages-of-65536.db "$work/y.db"
    pages=$(($(wc -c < "$work/y.db") / 65536))
    truncate -s +65535 "$work/y.db"
    exactly 0 $'ok\n' "dbck: note: 65535 bytes after page $pages are not read"$'\n' check "$work/y.db"
}

@test 'each note is the same on a terminal as in a file' {
    needs script
    on_terminal true || skip 'script does not run here'
    cp "$data/whole.db" "$work/x.db"
    log_notes "$work/x.db"
    printf 'sevenby' >> "$work/x.db"
    echo log > "$work/x.db-wal"
    echo log > "$work/x.db-journal"
    for command in check explain map; do
        noted 0 "$wal$journal"$'dbck: note: 7 bytes after page 13 are not read\n' "$command" "$work/x.db"
    done
    noted 0 "$wal$journal"$'dbck: note: 7 bytes after page 13 are not read\n' stat --all "$work/x.db"
    copied c3
    noted 1 "$letters$rest" check "$work/copied.db"
    put_at "$work/copied.db" 200 '\r\n\r\n\r\n\r\n'
    noted 1 "$lines$rest" explain "$work/copied.db"
    noted 1 "$version$lines$rest" stat "$work/copied.db"
    noted 4 "dbck: note: $work/missing.db: No such file or directory"$'\n'"$unread" check "$work/missing.db"
    : > "$work/none.db"
    noted 3 "dbck: note: $work/none.db is not checked"$'\n'"dbck: note: $work/none.db has no bytes; to SQLite it is an empty database"$'\ndbck: E1 file is shorter than 100 bytes\n' map "$work/none.db"
    changed zeros 0 '\0\0\0\0\0\0\0\0\0\0\0\0\0\0\0\0'
    noted 3 "dbck: note: $work/zeros.db is not checked"$'\n'"dbck: note: $work/zeros.db begins with zeros"$'\ndbck: E2 file is not a SQLite 3 database\n' stat "$work/zeros.db"
}

@test 'mend has each note that check has' {
    grown "$work/x.db"
    truncate -s +700 "$work/x.db"
    echo log > "$work/x.db-wal"
    echo log > "$work/x.db-journal"
    dbck check --with 92=0000 "$work/x.db"
    cp "$work/err" "$work/notes"
    row 'notes on logs, other bytes and bytes after the last page' [ "$(grep -c note: "$work/notes")" = 4 ]
    exactly 0 $'ok\n' "$(cat "$work/notes")"$'\n' mend --with 92=0000 "$work/x.db"
}

@test 'a database that is written while it is read through a link has a note' {
    local note
    grown "$work/x.db"
    ln -s x.db "$work/link.db"
    meanwhile "$work/link.db" touch -d '2001-01-01 00:00:00.1' "$work/x.db"
    note=$(changed_note "$work/link.db")
    row 'the note on a link' ended 0 '*' "${note%.}"
}

@test 'a file that is written while mend reads it has a note' {
    local name note wanted
    for name in whole two-tables; do
        cp "$data/$name.db" "$work/x.db"
        log_notes "$work/x.db"
        dbck mend "$work/x.db"
        cp "$work/out" "$work/wanted"
        wanted=$status
        at_first_note "touch -d '2001-01-01 00:00:00.1' '$work/x.db'" mend "$work/x.db"
        row "what mend writes of $name" cmp "$work/out" "$work/wanted"
        note=$(changed_note "$work/x.db")
        row "the note of mend on $name" ended "$wanted" '*' "$wal${note%.}"
    done
}

# Several programs may write to one standard error, so no note comes in pieces.
@test 'each note is one write' {
    needs python3
    cp "$data/empty.db" "$work/x.db"
    printf seven.. >> "$work/x.db"
    echo log > "$work/x.db-wal"
    row 'two notes' [ "$(writes_of stderr check "$work/x.db")" = $'1 whole\n1 whole' ]
}

@test 'a file of any time, mode and names has the note that it was written' {
    local before note
    log_notes "$work/x.db"
    note=$(changed_note "$work/x.db")
    for before in "touch -d '1970-01-01 00:00:00Z' '$work/x.db'" "touch -d '1960-01-01 00:00:00Z' '$work/x.db'" "chmod 444 '$work/x.db'" \
        "ln '$work/x.db' '$work/other'"; do
        rm -f "$work/x.db"
        cp "$data/whole.db" "$work/x.db"
        eval "$before"
        at_first_note "touch -d '2001-01-01 00:00:00.1' '$work/x.db'" check "$work/x.db"
        row "a file that is written after $before" ended_exactly 0 $'ok\n' "$wal${note%.}"
    done
}

# notes_of OUT WORDS..: the notes of a run, but for those that its options or a journal add; its text goes to OUT. It ends as the run does.
notes_of() {
    local ended=0
    "${as[@]}" "$DBCK" "${@:2}" > "$1" 2> "$work/err" < /dev/null 3>&- || ended=$?
    sed -e '/-journal: 1 page is read from it; /d' -e '/-journal is not read, and may undo changes; /d' -e '/ with 1 other byte$/d' \
        -e '/: the changes are of the database that SQLite would recover/d' -e 's/, as SQLite would recover it,//' "$work/err"
    return "$ended"
}

# has_notes OUT WORDS..: a run ends with $status, and has the text and the notes that are kept.
has_notes() {
    local ended=0
    notes_of "$@" > "$work/these" || ended=$?
    diff "$work/notes" "$work/these" && [ "$ended" = "$status" ] && { [ "$1" = /dev/full ] || cmp "$work/text" "$1"; }
}

# keep_notes FILE OPTIONS..: each command has notes on a file, also where its text cannot be written, and the same ones with these options.
keep_notes() {
    local command out options
    for command in "${five[@]}"; do
        for out in "$work/out" /dev/full; do
            status=0
            notes_of "$out" "$command" "$1" > "$work/notes" || status=$?
            [ "$out" = /dev/full ] || cp "$out" "$work/text"
            row "$command has notes on $1" test -s "$work/notes"
            for options in "${@:2}"; do
                # shellcheck disable=SC2086
                row "$command $options, $1, $out" has_notes "$out" "$command" $options "$1"
            done
        done
    done
}

@test 'the notes on a file come also with --with, with --recovered beside a journal, and without progress' {
    local file same
    needs python3
    no_returns
    mv "$work/x.db" "$work/returns.db"
    # The header states five pages of seven; page 5 names page 7.
    one_small whole "$work/rest.db"
    put_at "$work/rest.db" 28 '\0\0\0\05'
    put_at "$work/rest.db" 2056 '\0\0\0\07'
    changed zeros 0 '\0\0\0\0\0\0\0\0\0\0\0\0\0\0\0\0'
    changed packed 0 '\0037\0213'
    for file in returns rest zeros packed; do
        journal_of "$work/$file.db" <<< 1
        same="--with 0=$(od -An -tx1 -N1 "$work/$file.db" | tr -d ' ')"
        keep_notes "$work/$file.db" --no-progress "$same" --recovered "--recovered $same"
    done
    copied c3
    keep_notes "$work/copied.db" --no-progress '--with 0=53'
    # A file whose second page cannot be read.
    on_disk BAD=512 NAME=/rest.db
    keep_notes "$work/rest.db" --no-progress '--with 0=53' --recovered '--recovered --with 0=53'
    [ "$rows" = 280 ]
}

@test 'the notes on a file whose name begins with - come as those on another one' {
    cp "$data/whole.db" "$work/-x.db"
    printf 'sevenby' >> "$work/-x.db"
    echo log > "$work/-x.db-wal"
    cd "$work"
    exactly 0 $'ok\n' $'dbck: note: -x.db-wal is not read, and may hold changes; --recovered reads it\ndbck: note: 7 bytes after page 13 are not read\n' check -- -x.db
    : > -y.db
    expect 3 '' $'dbck: note: -y.db is not checked\ndbck: note: -y.db has no bytes; to SQLite it is an empty database\ndbck: E1 *' check -- -y.db
}

@test 'a file has the note that it was written where all times are whole seconds' {
    local note
    log_notes "$work/x.db"
    note=$(changed_note "$work/x.db")
    cp "$data/whole.db" "$work/x.db"
    touch -d '2001-01-01 00:00:00' "$work/x.db"
    at_first_note "touch -d '2001-01-01 00:00:02' '$work/x.db'" check "$work/x.db"
    ended_exactly 0 $'ok\n' "$wal${note%.}"
}

@test 'a file that is written while references past its stated end are counted has the note' {
    local note
    cp "$data/two-tables.db" "$work/x.db"
    put_at "$work/x.db" 28 '\0\0\0\6'
    log_notes "$work/x.db"
    note=$(changed_note "$work/x.db")
    at_first_note "touch -d '2001-01-01 00:00:00.1' '$work/x.db'" explain "$work/x.db"
    ended 1 '*' "$wal*, to which 1 reference leads"$'\n'"${note%.}"
}

@test 'a file that is written while it is read has the note also without progress, and so has a log' {
    local note
    log_notes "$work/x.db"
    note=$(changed_note "$work/x.db")
    cp "$data/whole.db" "$work/x.db"
    at_first_note "touch -d '2001-01-01 00:00:00.1' '$work/x.db'" check --no-progress "$work/x.db"
    row 'a file that is written' ended_exactly 0 $'ok\n' "$wal${note%.}"
    paired
    exactly 0 $'ok\n' "dbck: note: $work/pair.db-wal: 1 page of 1 transaction is read from it"$'\n' check --recovered --no-progress "$work/pair.db"
    log_notes "$work/pair.db"
    expect 0 '*' "$wal*" check --no-progress --with 92=0000 "$work/pair.db"
}
