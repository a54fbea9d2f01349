#!/usr/bin/env bats
# Damaged databases: verdicts beside those of SQLite, a slow checker, and repairs.
load common

# has_codes CODES: the codes of the lines of the last run.
has_codes() {
    local codes
    codes=$(cut -d ' ' -f 1 "$work/out" | paste -sd ' ')
    [ "$codes" = "$1" ] || fail "they are: $codes"
}

@test 'the examples of docs/SQLITE.md have the faults that it says' {
    while read -r name wanted; do
        dbck check "tests/beside/$name.db"
        row "$name: $wanted" has_codes "$wanted"
    done < <(table examples)
    expect 3 '' '*dbck: E5 *' check tests/beside/less-than-a-page.db
    [ "$rows" = 18 ]
}

# make_damaged: makes damaged databases in a folder `damaged`.
make_damaged() {
    needs python3
    tests/damage.py --of tests/sqlite --copies 2 "$work/damaged" > "$work/out"
}

# are_those_of_the_table: they have the names of tests/damaged.txt.
are_those_of_the_table() {
    (cd "$work/damaged" && printf '%s\n' *) | LC_ALL=C sort > "$work/names"
    grep -v '^#' tests/damaged.txt | cut -f 3 | LC_ALL=C sort | diff - "$work/names"
}

# has_verdict FILE WANTED: a check of the file is `ok`, `faults` or `refused`, by its first line and its status.
has_verdict() {
    local verdict
    dbck check --limit 1 "$1"
    case $status,$(< "$work/out") in
        0,ok) verdict=ok ;;
        1,*) verdict=faults ;;
        3,) verdict=refused ;;
        *) verdict="status $status" ;;
    esac
    [ "$verdict" = "$2" ] || fail "it is: $verdict"
}

@test 'each damaged database has the verdict of SQLite, or one that docs/SQLITE.md gives the reason for' {
    make_damaged
    row 'damaged databases are made' are_those_of_the_table
    while IFS=$'\t' read -r wanted _ name; do
        row "$name: $wanted" has_verdict "$work/damaged/$name" "$wanted"
    done < <(grep -v '^#' tests/damaged.txt)
    [ "$rows" -gt 1 ]
}

@test 'a slow checker finds those files sound that the program does' {
    make_damaged
    row 'a slow checker agrees' tests/slow.py "$DBCK" "$work/slow" tests/sqlite/*.db "$work"/damaged/*
}

@test 'docs/REPAIR.md saves of twenty damaged databases each row that another recipe saves' {
    needs python3 sqlite3
    row 'twenty repairs' tests/repair.py --few "$DBCK" "$work/repairs"
}
