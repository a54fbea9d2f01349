#!/usr/bin/env bats
# Files that are no databases of SQLite 3, or not such as are checked: status 3, and an error that says why.
load common

@test 'a file without bytes is refused as too short, and a note says what it is to SQLite' {
    : > "$work/no-bytes.db"
    for command in "${five[@]}"; do
        expect 3 '' "dbck: note: $work/no-bytes.db is not checked"$'\n'"dbck: note: $work/no-bytes.db has no bytes; to SQLite it is an empty database"$'\ndbck: E1 file is shorter than 100 bytes\n' "$command" "$work/no-bytes.db"
    done
}

@test 'a script is refused, and a note says how it begins' {
    for command in "${five[@]}"; do
        expect 3 '' $'dbck: note: tests/program/refused.bats is not checked\ndbck: note: tests/program/refused.bats begins with 23 21 2f 75 73 72 2f 62 69 6e 2f 65 6e 76 20 62  #!/usr/bin/env b\ndbck: E2 file is not a SQLite 3 database\n' "$command" tests/program/refused.bats
    done
}

@test 'each command refuses a file for each reason, and says how a file begins that is none of SQLite' {
    changed magic 0 '\0'
    changed zeros 0 '\0\0\0\0\0\0\0\0\0\0\0\0\0\0\0\0'
    changed page-size 16 '\03'
    changed usable 20 '\041'
    changed no-page 0 S
    truncate -s 511 "$work/no-page.db"
    changed header-alone 0 S
    truncate -s 100 "$work/header-alone.db"
    changed few-bytes 0 S
    truncate -s 99 "$work/few-bytes.db"
    for command in "${five[@]}"; do
        while IFS='|' read -r name begins error change; do
            begins=${begins:+dbck: note: $work/$name.db begins with $begins$'\n'}
            # What `mend` writes; the others write nothing.
            out=
            [ "$command" != mend ] || out=${change:+at byte $change$'\n    page 1 at byte 0\nok\n'}
            expect 3 "$out" "dbck: note: $work/$name.db is not checked"$'\n'"${begins}dbck: $error"$'\n' "$command" "$work/$name.db"
        done << 'END'
few-bytes||E1 file is shorter than 100 bytes|
magic|00 51 4c 69 74 65 20 66 6f 72 6d 61 74 20 33 00  .QLite format 3.|E2 file is not a SQLite 3 database|0 put 53514c69746520666f726d6174203300 for 00514c69746520666f726d6174203300
zeros|zeros|E2 file is not a SQLite 3 database|0 put 53514c69746520666f726d6174203300 for 00000000000000000000000000000000
page-size||E3 page size is not valid|16 put 0200 for 0300
usable||E4 usable size is below 480|20 put 00 for 21
no-page||E5 file has no whole page|
header-alone||E5 file has no whole page|
END
    done
}

@test 'of a refused file a note names the format that it begins with' {
    while read -r name bytes text; do
        printf '%b' "$bytes" > "$work/$name"
        truncate -s 600 "$work/$name"
        for command in "${five[@]}"; do
            expect 3 '' "dbck: note: $work/$name is not checked"$'\n'"dbck: note: $work/$name begins as $text"$'\ndbck: E2 file is not a SQLite 3 database\n' "$command" "$work/$name"
        done
    done << 'END'
x.gz \x1f\x8b\x08 a gzip file does; unpack it first
x.zip PK\x03\x04 a ZIP archive does; unpack it first
x.xz \xfd7zXZ\x00 an xz file does; unpack it first
x.zst \x28\xb5\x2f\xfd a zstd file does; unpack it first
x.pdf %PDF-1.7 a PDF document does
END
}

@test 'of other beginnings no format is named' {
    while read -r bytes shown; do
        printf '%b' "$bytes" > "$work/x"
        truncate -s 600 "$work/x"
        expect 3 '' "dbck: note: $work/x is not checked"$'\n'"dbck: note: $work/x begins with $shown*"$'\ndbck: E2 file is not a SQLite 3 database\n' check "$work/x"
    done << 'END'
\x1f\x8c 1f 8c 00
PK\x05\x06 50 4b 05 06 00
\xfd7zXZ\x01 fd 37 7a 58 5a 01 00
\x28\xb5\x2f\xfc 28 b5 2f fc 00
%PDF 25 50 44 46 00
\x00\x1f\x8b 00 1f 8b 00
END
}

@test 'a file with a page too many is refused, and one whose pointer map would be at the lock-byte page' {
    cp "$data/empty.db" "$work/many-pages.db"
    sparse "$work/many-pages.db" 34359738880
    changed map-at-lock 16 '\04'
    put_at "$work/map-at-lock.db" 52 '\0\0\0\01'
    sparse "$work/map-at-lock.db" 1073742848
    for error in 'many-pages E6 file has more than 67108864 pages' 'map-at-lock E7 pointer map at the lock-byte page'; do
        expect 3 '' "dbck: note: $work/${error%% *}.db is not checked"$'\n'"dbck: ${error#* }"$'\n' check "$work/${error%% *}.db"
    done
}
