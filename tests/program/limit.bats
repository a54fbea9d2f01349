#!/usr/bin/env bats
# How many faults are shown.
load common

# many_faults: makes unused.db, of 1000 pages of which all but the first are not in use; $all has the lines of its 999 faults.
many_faults() {
    with_lost "$work/unused.db" 1000
    all=$(seq -f 'N01 page %.0f item 0 value 0: page is not in use' 2 1000)
}

@test 'check --limit says how many faults are shown, and then comes how many more there are' {
    expect 1 "$twice$unused" '' check --limit 2 "$data/two-owners.db"
    expect 1 "$twice$unused" '' check "$data/two-owners.db" --limit=1000000
    expect 1 "$twice"$'more 1\n' '' check --limit 1 "$data/two-owners.db"
}

@test 'of 999 faults check shows 999, 998 or, by itself, 100' {
    many_faults
    expect 1 "$all"$'\n' '' check --limit 999 "$work/unused.db"
    expect 1 "$(head -n 998 <<< "$all")"$'\nmore 1\n' '' check --limit 998 "$work/unused.db"
    expect 1 "$(head -n 100 <<< "$all")"$'\nmore 899\n' '' check "$work/unused.db"
}

@test 'stat shows all 999 faults' {
    many_faults
    expect 1 "$page" "$all"$'\n' stat "$work/unused.db"
}

@test 'explain shows 999 faults of one kind as one entry' {
    local below
    many_faults
    below=$'    page 2 at byte 512: in no tree, overflow chain or freelist\n    all zeros\n    and 998 more pages like it: 3 to 1000\n'
    expect 1 "$(head -n 1 <<< "$all")"$'\n'"$below"$'999 faults\n    999 N01 page is not in use\n    999 in the whole file\n    pages 2 to 1000 are zeros: bytes 512 to 511999\n    0 of 0 tables and 0 of 0 indexes without a fault\n' '' \
        explain --limit 1 "$work/unused.db"
}
