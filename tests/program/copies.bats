#!/usr/bin/env bats
# Notes on what became of a file: bytes after its last page, a copy that was made as of a text, and changes while it is read.
load common

@test 'bytes after the last page have a note' {
    cp "$data/empty.db" "$work/noted.db"
    printf 's' >> "$work/noted.db"
    expect 0 $'ok\n' $'dbck: note: 1 byte after page 1 is not read\n' check "$work/noted.db"
    printf 'evenby' >> "$work/noted.db"
    expect 0 $'ok\n' $'dbck: note: 7 bytes after page 1 are not read\n' check "$work/noted.db"
    expect 0 "$page" $'dbck: note: 7 bytes after page 1 are not read\n' stat "$work/noted.db"
}

@test 'the note says how many whole pages are after the last page' {
    cp "$data/whole.db" "$work/longer.db"
    printf '%0700d' 0 >> "$work/longer.db"
    expect 0 $'ok\n' $'dbck: note: 700 bytes after page 13 are not read, 1 whole page among them\n' check "$work/longer.db"
    cp "$data/empty.db" "$work/pages-after.db"
    put_at "$work/pages-after.db" 24 '\0\0\0\07\0\0\0\01'
    put_at "$work/pages-after.db" 92 '\0\0\0\07'
    truncate -s 1024 "$work/pages-after.db"
    expect 0 $'ok\n' $'dbck: note: 512 bytes after page 1 are not read, 1 whole page among them\n' check "$work/pages-after.db"
    truncate -s 1543 "$work/pages-after.db"
    expect 0 $'ok\n' $'dbck: note: 1031 bytes after page 1 are not read, 2 whole pages among them\n' check "$work/pages-after.db"
}

# Such a copy has a fault, is of no whole pages, and shows it on its first page: in each line feed, or in well-formed UTF-8.
@test 'a file that was perhaps copied or converted as text has a note' {
    local version='H01 page 1 item 18 value 3: file version is not 1 or 2' rest='dbck: note: 7 bytes after page 1 are not read'
    cp "$data/empty.db" "$work/copied.db"
    put_at "$work/copied.db" 18 '\03'
    printf 'sevenby' >> "$work/copied.db"
    expect 1 "$version"$'\n' "$rest"$'\n' check "$work/copied.db"
    put_at "$work/copied.db" 200 '\r\n\r\n\r\n'
    expect 1 "$version"$'\n' "$rest"$'\n' check "$work/copied.db"
    put_at "$work/copied.db" 206 '\r\n'
    expect 1 "$version"$'\n' $'dbck: note: every line feed of the first page comes after a carriage return: perhaps copied as text (see the manual)\n'"$rest"$'\n' check "$work/copied.db"
    put_at "$work/copied.db" 210 '\n'
    expect 1 "$version"$'\n' "$rest"$'\n' check "$work/copied.db"
    put_at "$work/copied.db" 300 '\0303\0251\0303\0251\0303\0251\0303'
    expect 1 "$version"$'\n' "$rest"$'\n' check "$work/copied.db"
    put_at "$work/copied.db" 307 '\0251'
    expect 1 "$version"$'\n' $'dbck: note: the bytes of the first page from 80 on are well-formed UTF-8: perhaps converted as text (see the manual)\n'"$rest"$'\n' check "$work/copied.db"
    truncate -s 512 "$work/copied.db"
    expect 1 "$version"$'\n' '' check "$work/copied.db"
}

@test 'a file of any size, and of pages of any size, that was copied as text has the note' {
    local size
    needs sqlite3 perl
    for size in 512 1024 2048 4096 8192 16384 32768 65536; do
        rm -f "$work/made.db"
        sqlite3 "$work/made.db" "PRAGMA page_size = $size; CREATE TABLE t(
            a,
            b,
            c
        ); INSERT INTO t VALUES (1, 2, 3)"
        perl -pe 's/\n/\r\n/g' "$work/made.db" > "$work/x.db"
        expect 1 '*' '*dbck: note: every line feed of the first page comes after a carriage return: perhaps copied as text (see the manual)*' check "$work/x.db"
    done
    truncate -s 20000001 "$work/x.db"
    expect 1 '*' '*perhaps copied as text*' check "$work/x.db"
    [ "$rows" = 9 ]
}

# `mend` looks at the first bytes before it writes the first change, which is its last step here.
@test 'mend has the note on a copied file also where its last change is one of the first bytes' {
    needs python3
    python3 - "$data/whole.db" "$work/copied.db" << 'END'
import sys
page = bytearray(open(sys.argv[1], "rb").read())
page[80:512] = ("\u00e9" * 216).encode()
page[100:108] = bytes([13, 0, 0, 0, 0, 2, 0, 0])
page[0] = ord("X")
open(sys.argv[2], "wb").write(page)
END
    for limit in 1 2; do
        dbck mend --limit "$limit" "$work/copied.db"
        row "mend --limit $limit" grep -q 'from 80 on are well-formed UTF-8' "$work/err"
    done
}

@test 'a file that is written while it is read has a note, also where the second of its last change stays' {
    with_lost "$work/noted.db" 16000
    for time in '2001-01-01 00:00:00.1' '2001-01-01 00:00:00.2' '2001-01-01 00:00:00.200000001'; do
        meanwhile "$work/noted.db" touch -d "$time" "$work/noted.db"
        row "a file that is written meanwhile, at $time" ended 1 "$page*" \
            "*dbck: note: $work/noted.db was changed while it was read; the report may be of no state that it had"$'\n'
    done
}
