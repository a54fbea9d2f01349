#!/usr/bin/env bats
# Databases that SQLite wrote, one of each kind: all are sound.
load common

@test 'check says ok of each database of tests/sqlite' {
    for file in tests/sqlite/*.db; do
        expect 0 $'ok\n' '' check "$file"
        expect 0 $'ok\n' '' check --limit 1 "$file"
    done
    [ "$rows" = 42 ]
}

# has_rows_of FILE: the rows of the last run are of ten columns, and show the bytes of the file.
has_rows_of() {
    ended 0 '*' '' && awk -F '\t' -v bytes="$(wc -c < "$1")" 'NF != 10 { bad = 1 } { sum += $10 } END { exit bad || sum != bytes }' "$work/out"
}

@test 'stat has rows of each database of tests/sqlite, and stat --all shows each page once' {
    for file in tests/sqlite/*.db; do
        expect 0 $'sqlite_schema\t/\t1\t*' '' stat "$file"
        expect 0 $'sqlite_schema\t-\t*' '' stat --aggregate "$file"
        dbck stat --all "$file"
        row "stat --all $file" has_rows_of "$file"
        dbck stat --all --aggregate "$file"
        row "stat --all --aggregate $file" has_rows_of "$file"
    done
    [ "$rows" = 84 ]
}

@test 'map draws no fault of each database of tests/sqlite' {
    for file in tests/sqlite/*.db; do
        expect 0 "$picture"$' '"${file##*/}"$'</title>\n*, no fault; *</svg>\n' '' map "$file"
    done
    [ "$rows" = 21 ]
}
