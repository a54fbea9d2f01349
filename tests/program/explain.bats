#!/usr/bin/env bats
# What explain writes below each fault, and the summary at the end.
load common

note='table note'
twice_below="    page 2 at byte 512: root of $note"$'\n'"    page 7 at byte 3072: in $note, child of page 2"$'\n'
unused_below=$'    page 8 at byte 3584: in no tree, overflow chain or freelist\n    looks like a leaf of a table with 6 cells, rowids 25 to 30\n'
summary=$'2 faults\n    1 R03 page is already in use\n    1 N01 page is not in use\n    1 in table note (root page 2), on 1 of its 5 pages\n'
summary+=$'        rows not reached: rowids above 24 and up to 30\n'
summary+=$'    1 in the whole file\n    0 of 1 table and 1 of 1 index without a fault\n'

@test 'explain says ok of a sound database' {
    expect 0 $'ok\n' '' explain "$data/whole.db"
}

@test 'explain says below each fault where its pages are, and sums up all' {
    expect 1 "$twice$twice_below$unused$unused_below$summary" '' explain "$data/two-owners.db"
    expect 1 "$twice$twice_below$unused$unused_below$summary" '' explain --no-progress "$data/two-owners.db" --limit=10000
    expect 1 $'H10 page 1 item 0 value 3: freelist count differs from the header\n    header: 99\n1 fault\n    1 H10 freelist count differs from the header\n    1 in the whole file\n    1 of 1 table and 0 of 0 indexes without a fault\n' '' \
        explain "$data/view-last.db"
}

@test 'explain --limit shows fewer entries, and sums up all faults' {
    expect 1 "$twice$twice_below"$'more 1\n'"$summary" '' explain --limit 1 "$data/two-owners.db"
}

# is_explained TEXT: the last run has written the text of a file, byte for byte.
is_explained() {
    [ "$status" = 1 ] && [ ! -s "$work/err" ] && diff "$1" "$work/out"
}

@test 'explain writes of each database of tests/explain the text beside it, byte for byte' {
    for text in tests/explain/*.explain; do
        dbck explain "${text%.explain}.db"
        row "explain ${text%.explain}.db" is_explained "$text"
    done
    [ "$rows" = 14 ]
}

@test 'of a reference past the stated end explain says whether its page is in the file' {
    needs python3
    # Each file has 7 pages, of which the header states 6; the note is on the seventh.
    cat > "$work/ends.txt" << 'END'
== whole: 1 28 00000006
R01 page 5 item 1 value 7: page number out of range
    page 5 at byte 2048: root of table order
    page 7 is in the file, after its stated end
1 fault
    1 R01 page number out of range
    1 in table order (root page 5), on 1 of its 2 pages
        rows not reached: rowids above 200
    1 of 2 tables and 0 of 0 indexes without a fault
== whole: 1 28 00000006, 5 8 00000008
R01 page 5 item 1 value 8: page number out of range
    page 5 at byte 2048: root of table order
1 fault
    1 R01 page number out of range
    1 in table order (root page 5), on 1 of its 2 pages
        rows not reached: rowids above 200
    1 of 2 tables and 0 of 0 indexes without a fault
== whole: 1 28 00000006, 5 8 00000000
R01 page 5 item 1 value 0: page number out of range
    page 5 at byte 2048: root of table order
1 fault
    1 R01 page number out of range
    1 in table order (root page 5), on 1 of its 2 pages
        rows not reached: rowids above 200
    1 of 2 tables and 0 of 0 indexes without a fault
END
    local lead
    tests/small/make.py "$work/ends.txt" "$work/small" > "$work/list"
    while IFS='|' read -r number limit name; do
        dbck explain --limit "$limit" "$work/small/$number.db"
        row "explain $name" diff "$work/small/$number.text" "$work/out"
        lead=
        [ "$number" != 0 ] || lead=', to which 1 reference leads'
        row "the note on $name" ended 1 '*' "dbck: note: 512 bytes after page 6 are not read, 1 whole page among them$lead"$'\n'
    done < "$work/list"
    [ "$rows" = 6 ]
}

@test 'the note of explain says how many references lead to whole pages after the stated end' {
    needs python3
    local stated child length note lead command
    one_small whole "$work/whole.db"
    # Page 5 names page 6, and the page of the second column. The header states as many pages as the first column says, and the file has
    # the bytes of the third, where 7 pages have 3584.
    while IFS='|' read -r stated child length note lead; do
        cp "$work/whole.db" "$work/x.db"
        put_at "$work/x.db" 28 "\\0\\0\\0\\x$stated"
        put_at "$work/x.db" 2056 "\\0\\0\\0\\x$child"
        truncate -s "$length" "$work/x.db"
        for command in explain 'explain --limit 1'; do
            # shellcheck disable=SC2086
            expect 1 '*' "dbck: note: $note$lead"$'\n' $command "$work/x.db"
        done
        for command in check map mend; do
            expect 1 '*' "dbck: note: $note"$'\n' "$command" "$work/x.db"
        done
    done << 'END'
5|7|3584|1024 bytes after page 5 are not read, 2 whole pages among them|, to which 2 references lead
5|6|3584|1024 bytes after page 5 are not read, 2 whole pages among them|, to which 2 references lead
5|8|3584|1024 bytes after page 5 are not read, 2 whole pages among them|, to which 1 reference leads
5|7|3583|1023 bytes after page 5 are not read, 1 whole page among them|, to which 1 reference leads
6|7|3584|512 bytes after page 6 are not read, 1 whole page among them|, to which 1 reference leads
6|8|3584|512 bytes after page 6 are not read, 1 whole page among them|
6|7|3583|511 bytes after page 6 are not read|
END
    [ "$rows" = 35 ]
}

# sums FILE: the summary that a text ends with.
sums() {
    sed -n '/^[0-9]* faults*$/,$p' "$1"
}

# has_sums TEXT: the last run has ended with the summary of a text.
has_sums() {
    [ "$status" = 1 ] && diff <(sums "$1") <(sums "$work/out")
}

@test 'explain --limit 1 sums up all faults of each database of tests/explain' {
    for text in tests/explain/*.explain; do
        dbck explain --limit 1 "${text%.explain}.db"
        row "explain --limit 1 ${text%.explain}.db" has_sums "$text"
    done
    [ "$rows" = 14 ]
}

@test 'explain writes of each database of tests/small/explain.txt what stands there' {
    local wanted
    small explain
    while IFS='|' read -r number limit name; do
        dbck explain --limit "$limit" "$work/small/$number.db"
        row "explain --limit $limit $name" diff "$work/small/$number.text" "$work/out"
        wanted=1
        [ "$(< "$work/small/$number.text")" != ok ] || wanted=0
        row "the status of $name" ended "$wanted" '*' ''
    done < "$work/list"
    [ "$rows" -gt 0 ]
}
