#!/usr/bin/env bats
# How check and stat end, and what goes to which output.
load common

@test 'check says ok of a sound database, and ends with 0' {
    expect 0 $'ok\n' '' check "$data/empty.db"
    expect 0 $'ok\n' '' check "$data/by-sqlite.db"
    expect 0 $'ok\n' '' check "$data/whole.db"
}

@test 'check writes the faults to standard output, and ends with 1' {
    expect 1 "$twice$unused" '' check "$data/two-owners.db"
    expect 1 $'H10 page 1 item 0 value 3: freelist count differs from the header\n' '' check "$data/view-last.db"
}

@test 'stat writes the rows of a sound database to standard output, and ends with 0' {
    expect 0 "$page" '' stat "$data/empty.db"
    expect 0 "$page" '' stat --all "$data/empty.db"
    expect 0 "$tree" '' stat --aggregate "$data/empty.db"
    expect 0 "$tree" '' stat --all --aggregate "$data/empty.db"
}

@test 'stat writes rows to standard output and faults to standard error, and ends with 1' {
    expect 1 $'sqlite_schema\t*' "$twice$unused" stat "$data/two-owners.db"
    expect 1 $'*\n-\t-\t8\tunowned\t0\t0\t0\t0\t3584\t512\n' "$twice$unused" stat --all "$data/two-owners.db"
    expect 1 $'sqlite_schema\t-\t*' "$twice$unused" stat --aggregate "$data/two-owners.db"
    expect 1 $'*\n-\t-\t8\tunowned\t0\t0\t0\t0\t3584\t512\n' "$twice$unused" stat --aggregate --all "$data/two-owners.db"
}

@test 'a wrong byte is a fault of check on its first output, of stat on its second, and of map' {
    while IFS='|' read -r name offset bytes fault row; do
        changed "$name" "$offset" "$bytes"
        row="sqlite_schema"$'\t/\t1\t'"$row"$'\t0\t512\n'
        expect 1 "$fault"$'\n' '' check "$work/$name.db"
        expect 1 "$row" "$fault"$'\n' stat "$work/$name.db"
        expect 1 "$picture $name.db</title>"$'\n*, 1 fault; *</svg>\n' '' map "$work/$name.db"
    done << 'END'
version|18|\03|H01 page 1 item 18 value 3: file version is not 1 or 2|leaf	0	0	404	0
fragments|107|\01|P09 page 1 item 0 value 0: fragmented bytes differ from the count|leaf	0	0	405	0
content|105|\0\0|P03 page 1 item 0 value 65536: content area out of bounds|damaged	0	0	0	0
END
}
