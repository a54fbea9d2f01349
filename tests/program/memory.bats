#!/usr/bin/env bats
# Memory: what a command takes of large files, and how it ends where it gets none.
load common

# in_memory KIB WORDS..: runs the program in this address space, by `as`.
in_memory() {
    status=0
    (ulimit -v "$1" && exec "${as[@]}" "$DBCK" "${@:2}" > "$work/out" 2> "$work/err" < /dev/null 3>&-) || status=$?
}

@test 'without the memory for the marks of 67108864 pages each command ends with 5' {
    cp "$data/empty.db" "$work/many-pages.db"
    sparse "$work/many-pages.db" 34359738368
    for command in "${five[@]}"; do
        in_memory 40000 "$command" "$work/many-pages.db"
        row "$command in 40 MB" ended 5 '' $'dbck: E9 out of memory\n'
    done
}

# All pages but the first and the lock-byte page, 2097153, are not in use.
@test 'with memory 67108864 pages are checked' {
    cp "$data/empty.db" "$work/many-pages.db"
    sparse "$work/many-pages.db" 34359738368
    expect 1 $'N01 page 2 item 0 value 0: page is not in use\nmore 67108861\n' '' check --limit 1 "$work/many-pages.db"
}

# ends_within KIB OUT WORDS..: the program ends with 1 in this address space, at least once of five times: where a read takes long,
# it also takes the MiB by which it reads ahead.
ends_within() {
    local time
    for time in 1 2 3 4 5; do
        (ulimit -v "$1" && exec "$DBCK" "${@:3}" > "$2" 2>&1 < /dev/null 3>&-)
        [ $? != 1 ] || return 0
    done
    return 1
}

# least_memory WORDS..: the address space in KiB, within 16, in which the program ends with 1 by these words.
least_memory() {
    local low=0 high=65536 middle
    while [ $((high - low)) -gt 16 ]; do
        middle=$(((low + high) / 2))
        if ends_within "$middle" "$work/out" "$@"; then high=$middle; else low=$middle; fi
    done
    echo "$high"
}

# room BYTES PAGES LEAST: the address space in KiB for a file of so many pages: 7 MiB for the program, its buffers and counts, and BYTES for
# each eight pages; and at most 3/4 MiB, which is less than a byte a page, more than BYTES say beyond the LEAST for 2^16 pages and one.
room() {
    local whole=$((7 * 1024 + $1 * $2 / 8 / 1024)) more=$(($3 + $1 * ($2 - 65537) / 8 / 1024 + 768))
    echo $((whole < more ? whole : more))
}

# of_pages PAGES: makes pages-PAGES.db.
of_pages() {
    cp "$data/empty.db" "$work/pages-$1.db"
    sparse "$work/pages-$1.db" $((512 * $1))
}

# takes PAGES BYTES WORDS..: the command takes no more than so many bytes for each eight pages.
takes() {
    local least
    least=$(least_memory "${@:3}" "$work/pages-65537.db")
    ends_within "$(room "$2" "$1" "$least")" "$work/out" "${@:3}" "$work/pages-$1.db"
}

@test 'for each eight of 1048577 pages a command takes 32 bytes, explain 67 and map 68' {
    of_pages 65537
    of_pages 1048577
    while read -r bytes words; do
        # shellcheck disable=SC2086
        row "$words of 1048577 pages in $bytes bytes for each eight" takes 1048577 "$bytes" $words
    done << 'END'
32 check --limit 1
32 stat
67 explain --limit 1
68 map
END
}

@test 'for each eight of 16777217 pages explain takes 67 bytes' {
    of_pages 65537
    of_pages 16777217
    row 'explain of 16777217 pages' takes 16777217 67 explain --limit 1
}

@test 'for each eight of 16777217 pages map takes 68 bytes' {
    of_pages 65537
    of_pages 16777217
    row 'map of 16777217 pages' takes 16777217 68 map
}

# Two desks of four bytes a page, and three bits for each.
@test 'for each page mend takes less than 12 bytes' {
    local few many
    cp "$data/two-tables.db" "$work/few.db"
    sparse "$work/few.db" $((512 * 65537))
    put_at "$work/few.db" 28 '\0\0\0\0'
    cp "$work/few.db" "$work/many.db"
    sparse "$work/many.db" $((512 * 1048577))
    few=$(least_memory mend "$work/few.db")
    many=$(least_memory mend "$work/many.db")
    echo "$few KiB and $many KiB"
    [ $((many - few)) -lt $((12 * 983040 / 1024)) ]
}

# ends_in_all_room SETTING..: in each address space, from one that is too small for the program to begin up to 1600 KiB beyond the first in which
# it says of x.db that it is sound, it says so or that it has no memory.
ends_in_all_room() {
    local kib began='' beyond=0
    for ((kib = 3000; beyond < 32; kib += 50)); do
        [ "$kib" -lt 65536 ] || fail "no end in $kib KiB" || return
        status=0
        # shellcheck disable=SC2163
        (export "$@" && ulimit -v "$kib" && exec "$DBCK" check "$work/x.db" > "$work/out" 2> "$work/err" < /dev/null 3>&-) || status=$?
        case $status in
            0) ended 0 $'ok\n' '?(ERROR: ld.so: *)' ;;
            5) ended 5 '' $'?(ERROR: ld.so: *)dbck: E9 out of memory\n' ;;
            *) [[ -z $began && $status != [134] ]] || differs 'ok or E9' ;;
        esac || fail "in $kib KiB" || return
        [[ $status != [05] ]] || began=1
        if [ "$status" = 0 ] || [ "$beyond" -gt 0 ]; then beyond=$((beyond + 1)); fi
    done
}

# The pages follow one another, so that there are buffers for many: one of 256 KiB, and where a read takes long also one of a MiB.
@test 'without the memory for what is read at once pages are read one by one' {
    local setting
    needs cc
    row_of 4000 4096 "$work/x.db"
    for setting in "${disks[@]}"; do
        on_disk "$setting"
        row "$setting" ends_in_all_room "${as[@]:1}"
    done
}

# There is no room in 40 MB for this file.
@test 'a file on a disk takes no memory for its length' {
    row_of 1200 65536 "$work/x.db"
    on_disk SLOW=300
    in_memory 40000 check "$work/x.db"
    row "check of $size bytes on a disk" ended 0 $'ok\n' ''
}

# There is no room in 40 MB for these logs.
@test 'a log takes memory for its pages, and not for its length' {
    needs python3
    paired
    dbck check "$work/whole.db"
    cp "$work/out" "$work/wanted"
    sparse "$work/pair.db-wal" 1200000000
    in_memory 40000 check --recovered "$work/pair.db"
    row 'what is reported beside a log of 1.2 GB' cmp "$work/out" "$work/wanted"
    row 'the run beside a log of 1.2 GB' ended 0 '*' "dbck: note: $work/pair.db-wal: 1 page of 1 transaction is read from it"$'\n*'
    # A journal that gives page 1, as many records as it has room for, and nothing more.
    cp "$data/empty.db" "$work/x.db"
    journal_of "$work/x.db" <<< 1
    put_at "$work/x.db-journal" 8 '\xff\xff\xff\xff'
    sparse "$work/x.db-journal" 34359738367
    in_memory 40000 check --recovered "$work/x.db"
    row 'the run beside a journal of 32 GiB' ended 0 $'ok\n' "dbck: note: $work/x.db-journal: 1 page is read from it; the database had 1 page"$'\n'
    sparse "$work/x.db-journal" 34359738368
    in_memory 40000 check --recovered "$work/x.db"
    row 'a journal that is too long' ended 4 '' "dbck: note: $work/x.db-journal has 32 GiB or more, and is not read"$'\n'"$unread"
}

# Each transaction writes page 2. Page 1, with its fault, is not in the log.
@test 'a log takes no memory for pages that it has anew' {
    local name few many
    logged few <<< 'INSERT INTO t VALUES (1)'
    rm "$work"/made.db*
    {
        echo 'PRAGMA synchronous = OFF'
        echo 'INSERT INTO t VALUES (1)'
        seq -f 'UPDATE t SET a = %.0f' 100000
    } | logged many
    for name in few many; do put_at "$work/$name.db" 72 '\01'; done
    few=$(least_memory check --recovered "$work/few.db")
    many=$(least_memory check --recovered "$work/many.db")
    [ $((many - few)) -lt 512 ] || fail "$few KiB and $many KiB"
}

# The last of the frames alone commits them. Each is that of page 2 which the log of few.db ends with.
@test 'a log of one transaction takes no memory for pages that it has anew' {
    local few many
    logged few <<< 'INSERT INTO t VALUES (1)'
    put_at "$work/few.db" 72 '\01'
    cp "$work/few.db" "$work/many.db"
    python3 - "$work" << 'END'
import sys
sys.path.insert(0, "tests")
from logs import order_of, stated, sums
wal = open(sys.argv[1] + "/few.db-wal", "rb").read()
page, order, before = wal[-512:], order_of(wal), stated(wal, 24)
# What a page does to the sums before it is the same each time.
none, first, second = (sums(order, start, page) for start in ((0, 0), (1, 0), (0, 1)))
with open(sys.argv[1] + "/many.db-wal", "wb") as many:
    many.write(wal[:32])
    for pages in [0] * 99999 + [2]:
        head = (2).to_bytes(4, "big") + pages.to_bytes(4, "big")
        a, b = sums(order, before, head)
        before = [(n + a * (f - n) + b * (s - n)) & 0xFFFFFFFF for n, f, s in zip(none, first, second)]
        many.write(head + wal[16:24] + b"".join(n.to_bytes(4, "big") for n in before) + page)
END
    dbck check --recovered "$work/many.db"
    row 'the frames of one transaction' ended 1 '*' "dbck: note: $work/many.db-wal: 1 page of 1 transaction is read from it"$'\n'
    few=$(least_memory check --recovered "$work/few.db")
    many=$(least_memory check --recovered "$work/many.db")
    row "$few KiB and $many KiB" [ $((many - few)) -lt 512 ]
}

@test 'a log of 1.2 GB takes little of the stack' {
    paired
    sparse "$work/pair.db-wal" 1200000000
    in_stack unlimited check --recovered "$work/pair.db"
    row 'a stack of 256 KiB' ended 0 $'ok\n' "dbck: note: $work/pair.db-wal: 1 page of 1 transaction is read from it"$'\n*'
}

@test 'a log that gives 300000 pages takes little time' {
    logged x <<< 'INSERT INTO t VALUES (zeroblob(300000 * 508))'
    most=30
    dbck check --recovered "$work/x.db"
    row 'a log of 300000 pages' ended 0 $'ok\n' "dbck: note: $work/x.db-wal: 3000* pages of 1 transaction are read from it"$'\n'
}

# Each changes another page, in no order.
@test 'a log of 200000 transactions takes little time' {
    {
        echo 'PRAGMA synchronous = OFF'
        echo 'WITH RECURSIVE k(n) AS (SELECT 1 UNION ALL SELECT n + 1 FROM k WHERE n < 200000) INSERT INTO t SELECT zeroblob(400) FROM k'
        echo 'PRAGMA wal_checkpoint(TRUNCATE)'
        awk 'BEGIN { for (n = 0; n < 200000; n++) print "UPDATE t SET a = zeroblob(401) WHERE rowid = " 7919 * n % 200000 + 1 }'
    } | logged x
    most=30
    dbck check --recovered "$work/x.db"
    row 'a log of 200000 transactions' ended 0 $'ok\n' "dbck: note: $work/x.db-wal: 200000 pages of 200000 transactions are read from it"$'\n'
}

# Each of them has the salts of the log.
@test 'a log of 600000 frames after one that is not valid takes little time, memory and stack' {
    local notes="dbck: note: $work/x.db-wal: 1 page of 1 transaction is read from it"$'\n'
    notes+="dbck: note: $work/x.db-wal: frame 2 is not valid, at byte 568; 599999 frames after it have the log's salts, and are left out"$'\n'
    logged x <<< 'INSERT INTO t VALUES (1)'
    python3 - "$work/x.db-wal" << 'END'
import sys
frame = open(sys.argv[1], "rb").read()[-536:]
with open(sys.argv[1], "ab") as log:
    for _ in range(600):
        log.write((frame[:16] + bytes(8) + frame[24:]) * 1000)
END
    most=30
    dbck check --recovered "$work/x.db"
    row '600000 frames after it' ended_exactly 0 $'ok\n' "$notes"
    in_stack 8192 check --recovered "$work/x.db"
    row 'a stack of 256 KiB, and 8 MiB' ended_exactly 0 $'ok\n' "$notes"
}

@test 'a journal that gives 300000 pages takes little time' {
    needs python3
    cp "$data/empty.db" "$work/x.db"
    sparse "$work/x.db" $((512 * 300000))
    dbck explain --limit 1 "$work/x.db"
    cp "$work/out" "$work/wanted"
    seq 300000 | journal_of "$work/x.db"
    most=30
    dbck explain --limit 1 --recovered "$work/x.db"
    row 'what is reported beside a journal of 300000 pages' cmp "$work/out" "$work/wanted"
    row 'a journal of 300000 pages' ended 1 '*' "dbck: note: $work/x.db-journal: 300000 pages are read from it; the database had 300000 pages"$'\n'
}
