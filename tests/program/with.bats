# `--with OFFSET=HEX`: the report of a file with other bytes, which is not written.
load common

# other FILE BYTES: the note on a file that is reported with other bytes.
other() {
    if [ "$2" = 1 ]; then
        printf 'dbck: note: %s with 1 other byte\n.' "$1"
    else
        printf 'dbck: note: %s with %s other bytes\n.' "$1" "$2"
    fi
}

# noted FILE BYTES: puts that note into $note.
noted() {
    note=$(other "$@")
    note=${note%.}
}

# refuses WORDS REASON OPTIONS..: the words are wrong for this reason, with these options before a file.
refuses() {
    exactly 2 '' "dbck: invalid value '$1' for '--with <OFFSET=HEX>': $2"$'\n\nFor more information, try \'--help\'.\n' check "${@:3}" "$data/whole.db"
}

# past FILE LENGTH OPTIONS..: each command ends so, where the file has this length.
past() {
    local command
    for command in "${five[@]}"; do
        exactly 3 '' "dbck: note: $1 has $2"$'\ndbck: E11 a byte of --with is past the end of the file\n' "$command" "${@:3}" "$1" || return
    done
}

@test 'E11 of a file above 4 GiB says how many bytes it has' {
    cp "$data/empty.db" "$work/x.db"
    sparse "$work/x.db" 5000000000
    past "$work/x.db" '5000000000 bytes' --with 5000000000=00
}

@test 'a file that is changed before E11 has the note on that, too' {
    local note
    cp "$data/whole.db" "$work/x.db"
    log_notes "$work/x.db"
    at_first_note "truncate -s 512 '$work/x.db'" check --with 1526=00 "$work/x.db"
    note=$(changed_note "$work/x.db")
    ended_exactly 3 '' "${wal}dbck: note: $work/x.db has 512 bytes"$'\n'"${note%.}"$'dbck: E11 a byte of --with is past the end of the file\n'
}

@test 'a file that is written while it is read with other bytes has a note' {
    local command changed
    cp "$data/whole.db" "$work/x.db"
    log_notes "$work/x.db"
    noted "$work/x.db" 2
    changed=$(changed_note "$work/x.db")
    for command in check explain map stat; do
        at_first_note "touch -d '2001-01-01 00:00:00.1' '$work/x.db'" "$command" --with 92=0000 "$work/x.db"
        row "$command" ended 0 '*' "$wal$note${changed%.}"
        touch "$work/x.db"
    done
}

@test 'bytes after the last page have their note beside other bytes' {
    local command
    cp "$data/whole.db" "$work/x.db"
    truncate -s +700 "$work/x.db"
    noted "$work/x.db" 2
    for command in check explain map stat; do
        expect 0 '*' "${note}dbck: note: 700 bytes after page 13 are not read, 1 whole page among them"$'\n' "$command" --with 92=0000 "$work/x.db"
    done
}

@test 'a table whose root names a wrong page is sound with the right one' {
    cp "$data/two-tables.db" "$work/x.db"
    noted "$work/x.db" 4
    exactly 0 $'ok\n' "$note" check --with 1526=00000007 "$work/x.db"
    exactly 0 $'ok\n' "$note" explain --with 1526=00000007 "$work/x.db"
    expect 0 "$picture x.db</title>*8 pages of 512 bytes (4.0 KiB), no fault*" "$note" map --with 1526=00000007 "$work/x.db"
    expect 0 $'sqlite_schema\t-\t1\t*' "$note" stat --aggregate --with 1526=00000007 "$work/x.db"
    cmp "$work/x.db" "$data/two-tables.db"
}

@test 'the words are taken in each form' {
    noted "$data/two-tables.db" 4
    for words in '--with 1526=00000007' '--with=1526=00000007' '--with 1528=0007 --with 1526=0000' '--with +1526=00000007' '--no-progress --with 1526=00000007'; do
        # shellcheck disable=SC2086
        exactly 0 $'ok\n' "$note" check $words -- "$data/two-tables.db"
    done
    exactly 0 $'ok\n' "$note" check "$data/two-tables.db" --with 1526=00000007
    # Digits of either case.
    noted "$data/empty.db" 2
    exactly 0 $'ok\n' "$note" check --with 510=aFFf "$data/empty.db"
}

@test 'bytes of the header' {
    # The first byte: what is shown of it is the other one.
    noted "$data/empty.db" 1
    exactly 3 '' "${note}dbck: note: $data/empty.db is not checked
dbck: note: $data/empty.db begins with 00 51 4c 69 74 65 20 66 6f 72 6d 61 74 20 33 00  .QLite format 3.
dbck: E2 file is not a SQLite 3 database
" check --with 0=00 "$data/empty.db"
    # A page size that is none, and a file version.
    expect 3 '' "${note}dbck: note: $data/empty.db is not checked"$'\ndbck: E3 page size is not valid\n' explain --with 17=01 "$data/empty.db"
    exactly 1 $'H01 page 1 item 18 value 3: file version is not 1 or 2\n' "$note" check --with 18=03 "$data/empty.db"
    # A file that is refused is read.
    changed x 0 X
    expect 3 '' '*E2 file is not a SQLite 3 database*' check "$work/x.db"
    noted "$work/x.db" 1
    exactly 0 $'ok\n' "$note" check --with 0=53 "$work/x.db"
}

@test 'the last byte, and the one past it' {
    noted "$data/empty.db" 1
    exactly 0 $'ok\n' "$note" check --with 511=ff "$data/empty.db"
    past "$data/empty.db" '512 bytes' --with 512=00
    past "$data/empty.db" '512 bytes' --with 511=0000
    past "$data/empty.db" '512 bytes' --with 0=53 --with 497=00000000000000000000000000000000
    past "$data/empty.db" '512 bytes' --with 18446744073709551615=00000000000000000000000000000000
    noted "$data/empty.db" 16
    exactly 0 $'ok\n' "$note" check --with 496=00000000000000000000000000000000 "$data/empty.db"
}

@test 'short files and files that are not there' {
    : > "$work/none.db"
    past "$work/none.db" 'no bytes' --with 0=53
    printf S > "$work/one.db"
    past "$work/one.db" '1 byte' --with 1=00
    noted "$work/one.db" 1
    exactly 3 '' "${note}dbck: note: $work/one.db is not checked"$'\ndbck: E1 file is shorter than 100 bytes\n' check --with 0=53 "$work/one.db"
    exactly 4 '' "dbck: note: $work/gone.db: No such file or directory"$'\n'"$unread" check --with 0=53 "$work/gone.db"
    exactly 4 '' "dbck: note: $work: a directory"$'\n'"$unread" stat --with 0=53 "$work"
}

@test 'words that are wrong' {
    while IFS='|' read -r word reason; do
        refuses "$word" "$reason" "--with=$word"
    done <<'ROWS'
1526|there is no '='
|there is no '='
=00|the offset is not a number from 0 to 18446744073709551615
x=00|the offset is not a number from 0 to 18446744073709551615
-1=00|the offset is not a number from 0 to 18446744073709551615
0x10=00|the offset is not a number from 0 to 18446744073709551615
18446744073709551616=00|the offset is not a number from 0 to 18446744073709551615
5=|there are no bytes
5=0|the last byte has one digit and not two
5=000|the last byte has one digit and not two
5=0g|a byte is not two digits of 0 to 9 and a to f
5=0x00|a byte is not two digits of 0 to 9 and a to f
5=00,6=00|a byte is not two digits of 0 to 9 and a to f
5=00=0|a byte is not two digits of 0 to 9 and a to f
5=0000000000000000000000000000000000|there are more than 16 bytes
ROWS
    # A control character reaches no terminal.
    # Of more than one it is the wrong one that is named, and why it is wrong. A long word is named as a whole.
    refuses 6=0g 'a byte is not two digits of 0 to 9 and a to f' --with 5=00 --with 6=0g
    refuses x=00 'the offset is not a number from 0 to 18446744073709551615' --with 5=00 --with x=00 --with 7=0g
    refuses "5=$(printf '0%.0s' {1..100})" 'there are more than 16 bytes' --with "5=$(printf '0%.0s' {1..100})"
    refuses '5=\x1b[2J' 'a byte is not two digits of 0 to 9 and a to f' --with $'5=\e[2J'
    exactly 2 '' $'dbck: a value is required for \'--with <OFFSET=HEX>\' but none was supplied\n\nFor more information, try \'--help\'.\n' check --with
}

@test 'two that overlap, and more than 16' {
    refuses '6=00' 'it overlaps another one' --with 5=0000 --with 6=00
    refuses '4=0000' 'it overlaps another one' --with 5=00 --with 9=00 --with 4=0000
    refuses '5=00' 'it overlaps another one' --with 5=00 --with 5=00
    local words=() at
    for at in {400..415}; do
        words+=(--with "$at=00")
    done
    noted "$data/empty.db" 16
    exactly 0 $'ok\n' "$note" check "${words[@]}" "$data/empty.db"
    refuses '416=00' 'it comes after 16 others, and no more are taken' "${words[@]}" --with 416=00
    # All 256 bytes that there may be.
    words=()
    for at in {100..355..16}; do
        words+=(--with "$at=$(od -An -tx1 -j"$at" -N16 "$data/whole.db" | tr -d ' \n')")
    done
    noted "$data/whole.db" 256
    exactly 0 $'ok\n' "$note" check "${words[@]}" "$data/whole.db"
}

# beside FILE CHANGES..: each command writes of the file with changes what it writes of a copy in which they are written.
beside() {
    local file=$1 change words=() command options count=0 hex
    mkdir -p "$work/a" "$work/b"
    cp "$file" "$work/a/x.db"
    cp "$file" "$work/b/x.db"
    for change in "${@:2}"; do
        hex=${change#*=}
        count=$((count + ${#hex} / 2))
        words+=(--with "$change")
        # shellcheck disable=SC2001
        put_at "$work/b/x.db" "${change%%=*}" "$(sed 's/../\\x&/g' <<< "$hex")"
    done
    noted "$work/a/x.db" "$count"
    for command in check explain map 'stat --all' 'stat --aggregate'; do
        read -ra options <<< "$command"
        dbck "${options[@]}" "$work/b/x.db"
        cp "$work/out" "$work/wanted"
        { printf %s "$note" && sed "s|$work/b/|$work/a/|" "$work/err"; } > "$work/wanted_err"
        wanted=$status
        dbck "${options[@]}" "${words[@]}" "$work/a/x.db"
        if [ "$status" != "$wanted" ] || ! cmp "$work/out" "$work/wanted" || ! cmp "$work/err" "$work/wanted_err"; then
            fail "dbck $command ${words[*]} $file: status $status, not $wanted" || return
        fi
    done
    cmp "$file" "$work/a/x.db"
}

@test 'the report is that of a copy with these bytes' {
    local files=("$data"/*.db) file size times at length hex
    RANDOM=74
    for times in {1..36}; do
        file=${files[times % ${#files[@]}]}
        size=$(stat -c %s "$file")
        changes=()
        # Up to three changes, each in a third of the file; of every third file only in the header and the first page.
        [ $((times % 3)) != 0 ] || size=$((size < 512 ? size : 512))
        for third in 0 1 2; do
            [ $((RANDOM % 3)) != 0 ] || [ "$third" = 0 ] || continue
            length=$((RANDOM % 16 + 1))
            at=$((third * (size / 3) + RANDOM % (size / 3 - length)))
            hex=
            for ((i = 0; i < length; i++)); do
                hex+=$(printf %02x $((RANDOM % 3 ? RANDOM % 256 : RANDOM % 8)))
            done
            changes+=("$at=$hex")
        done
        beside "$file" "${changes[@]}"
    done
}
