#!/usr/bin/env bats
# The rows of stat, beside the lines of check.
load common

# part TEXT NAME: what a text of tests/small/stat.txt has after the line `-- NAME`, with the tabs that it writes `|`; and before any such
# line its faults.
part() {
    awk -v wanted="$2" 'BEGIN { part = "faults" } /^-- / { part = substr($0, 4); next } part == wanted' "$1" | tr '|' '\t'
}

# wrote OUT ERR STATUS: the last run has written what these files have, and ended so.
wrote() {
    [ "$status" = "$3" ] && diff "$1" "$work/out" && diff "$2" "$work/err"
}

# each_form DATABASE LIMIT NAME: a check, and the forms of stat whose rows the text beside the database has. The rows of other pages come last.
each_form() {
    local form lines=$work/faults wanted=1 words
    part "$1.text" faults > "$work/faults"
    if [ "$(< "$work/faults")" = ok ]; then
        lines=/dev/null wanted=0
    fi
    dbck check --limit "$2" "$1.db"
    row "check --limit $2 $3" wrote "$work/faults" /dev/null "$wanted"
    part "$1.text" pages > "$work/pages"
    sed -n $'/^-\t-\t/p' "$work/pages" > "$work/others"
    for form in pages trees; do
        part "$1.text" "$form" > "$work/$form"
        sed $'/^-\t-\t/d' "$work/$form" > "$work/rows"
        [ -s "$work/rows" ] || continue
        words=()
        [ "$form" = pages ] || words=(--aggregate)
        dbck stat "${words[@]}" "$1.db"
        row "stat of $form, $3" wrote "$work/rows" "$lines" "$wanted"
        cat "$work/others" >> "$work/rows"
        dbck stat --all "${words[@]}" "$1.db"
        row "stat of $form and other pages, $3" wrote "$work/rows" "$lines" "$wanted"
    done
}

@test 'check and each form of stat write of each database of tests/small/stat.txt what stands there' {
    small stat
    while IFS='|' read -r number limit name; do
        each_form "$work/small/$number" "$limit" "$name"
    done < "$work/list"
    [ "$rows" -gt 0 ]
}

# shows_each_page FILE: the rows of the last run are of each page of 512 bytes once, or count them, beside the lines of a check.
shows_each_page() {
    [ "$status" = 1 ] && cmp "$work/lines" "$work/err" && awk -F '\t' -v bytes="$(wc -c < "$1")" '
        NF != 10 || ($4 != "-" && seen[$3]++) { bad = 1 }
        { pages += ($4 == "-" ? $3 : 1); sum += $10 }
        END { exit bad || sum != bytes || pages != bytes / 512 }' "$work/out"
}

# There are a pointer map and a freelist, whose first leaves are map page 105 and page 3, which is in use. The header states no number of pages.
@test 'stat --all shows each of 100000 pages once, and writes the faults of check' {
    cp tests/sqlite/autovacuum-incremental.db "$work/sparse.db"
    truncate -s 51200000 "$work/sparse.db"
    put_at "$work/sparse.db" 28 '\0\0\0\0'
    put_at "$work/sparse.db" 5128 '\0\0\0\0151\0\0\0\03'
    dbck check --limit 1000000 "$work/sparse.db"
    mv "$work/out" "$work/lines"
    for words in 'stat --all' 'stat --all --aggregate'; do
        # shellcheck disable=SC2086
        dbck $words "$work/sparse.db"
        row "$words of 100000 pages" shows_each_page "$work/sparse.db"
    done
}

# Page 1 is an interior page whose one child is the last of 262147 pages of 65536 bytes, a leaf without cells, which only a root may be.
# Page 16385 is the lock-byte page, and nothing names the others: 262144 are lost.
@test 'check and stat read a page above 16 GiB' {
    : > "$work/far.db"
    sparse "$work/far.db" 17180065792
    put_at "$work/far.db" 0 'SQLite format 3\0'
    put_at "$work/far.db" 16 '\0\01\01\01\0\0100\040\040'
    put_at "$work/far.db" 100 '\05'
    put_at "$work/far.db" 108 '\0\04\0\03'
    put_at "$work/far.db" 17180000256 '\015'
    expect 1 $'P10 page 262147 item 0 value 0: empty page that is not a root\nmore 262144\n' '' check --limit 1 "$work/far.db"
    dbck stat "$work/far.db"
    row 'the faults of stat' [ "$(wc -l < "$work/err")" = 262145 ]
    : > "$work/err"
    row 'stat of a page above 16 GiB' ended 1 \
        $'sqlite_schema\t/\t1\tinternal\t0\t0\t65424\t0\t0\t65536\nsqlite_schema\t/000/\t262147\tleaf\t0\t0\t65528\t0\t17180000256\t65536\n' ''
}

@test 'the rows of stat are those of dbstat' {
    [ "$(sqlite3 :memory: 'SELECT count(*) FROM dbstat' 2> /dev/null)" ] || skip 'there is no sqlite3 with dbstat'
    row 'the rows of dbstat' tests/compare_dbstat.sh "$DBCK" "$data/whole.db" "$data/by-sqlite.db" tests/sqlite/*.db
}
