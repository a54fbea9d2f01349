# The greatest files, and many of what there can be many of. Files are sparse: they take little room.
load common

# within SECONDS WORDS..: runs the program, which has to end in that time. It is some twenty times what it takes.
within() {
    status=0
    timeout "$1" "$DBCK" "${@:2}" > "$work/out" 2> "$work/err" < /dev/null 3>&- || status=$?
    [ "$status" != 124 ] || fail "dbck ${*:2} takes more than $1 seconds"
}

# is_report STATUS FILE: the last run ended so, and wrote what a file has.
is_report() {
    cmp "$work/out" "$2" && [ ! -s "$work/err" ] && [ "$status" = "$1" ] || fail "status $status, $(show "$work/err")"
}

# name NUMBER LENGTH: the name of a table of make.py.
name() {
    printf "t%0$(($2 - 1))d" "$1"
}

# damage_roots COUNT FILE: overwrites so many pages from the first root on by zeros.
damage_roots() {
    dd if=/dev/zero of="$2" bs=512 seek=$((roots - 1)) count="$1" conv=notrunc status=none
}

@test '18000 tables with names of 2 MB are sound, and have a row each' {
    large tables 18000 112 "$work/x.db"
    within 20 check "$work/x.db"
    ended_exactly 0 $'ok\n' ''
    within 20 explain "$work/x.db"
    ended_exactly 0 $'ok\n' ''
    within 20 map "$work/x.db"
    ended 0 "$picture x.db</title>*$((roots + 17999)) pages of 512 bytes (17.8 MiB), no fault; a square is 4 pages*>17989 other trees</text>*" ''
    within 20 stat --aggregate "$work/x.db"
    head -n 1 "$work/out" | cut -f 1,3 | grep -qx $'sqlite_schema\t'"$((roots - 1))"
    seq -f "t%0111.0f" 18000 | sed 's/$/\t-\t1\t-\t0\t0\t504\t0\t-\t512/' | cmp - <(tail -n +2 "$work/out")
    within 20 stat --all "$work/x.db"
    seq 18000 | awk -v roots="$roots" '{ p = roots + $1 - 1; printf "t%0111d\t/\t%d\tleaf\t0\t0\t504\t0\t%d\t512\n", $1, p, (p - 1) * 512 }' | cmp - <(tail -n 18000 "$work/out")
    [ "$(wc -l < "$work/out")" = $((roots + 17999)) ]
}

# counted COUNT NAME: the last explanation ends with the summary of so many damaged roots, one in each table, whose names are made by this
# format.
counted() {
    {
        echo "$1 faults"
        echo "    $1 P01 unknown page type"
        seq "$1" | awk -v roots="$roots" -v name="$2" '{
            printf "        1 in table " name " (root page %d), on 1 of its 1 page\n        rows not reached: %s\n", $1, roots + $1 - 1, $1 <= 1000 ? "all rows" : "1 more" }'
        echo "    pages $roots to $((roots + $1 - 1)) are zeros: bytes $((512 * (roots - 1))) to $((512 * (roots + $1 - 1) - 1))"
        echo "    0 of $1 tables and 0 of 0 indexes without a fault"
    } > "$work/wanted"
    sed -n "/^$1 faults\$/,\$p" "$work/out" | diff - "$work/wanted" | head -n 5 > "$work/why"
    [ ! -s "$work/why" ] || fail "$(cat "$work/why")"
}

@test '18000 faults in 18000 tables are counted for each' {
    large tables 18000 112 "$work/x.db"
    damage_roots 18000 "$work/x.db"
    within 20 check --limit 20000 "$work/x.db"
    seq "$roots" $((roots + 17999)) | sed 's/.*/P01 page & item 0 value 0: unknown page type/' > "$work/wanted"
    is_report 1 "$work/wanted"
    within 40 explain --limit 10000 "$work/x.db"
    counted 18000 't%0111d'
    [ "$(grep -c '^P01 page ' "$work/out")" = 10000 ]
    grep -qx "    page $((roots + 9999)) at byte $((512 * (roots + 9998))): root of table $(name 10000 112)" "$work/out"
    within 40 map "$work/x.db"
    ended 1 "$picture x.db</title>*, 18000 faults; a square is 4 pages*" ''
}

@test 'of 65537 tables the last is one too many' {
    large tables 65537 10 "$work/x.db"
    fault="S04 page $leaf item $item value $((roots + 65536)): more than 65536 root pages"
    unused="N01 page $((roots + 65536)) item 0 value 0: page is not in use"
    within 20 check "$work/x.db"
    ended_exactly 1 "$fault"$'\n'"$unused"$'\n' ''
    within 20 stat --aggregate --all "$work/x.db"
    [ "$status" = 1 ]
    printf '%s\n' "$fault" "$unused" | cmp - "$work/err"
    [ "$(wc -l < "$work/out")" = 65538 ]
    tail -n +2 "$work/out" | head -n 65536 | cut -f 1,3 | cmp - <(seq -f $'t%09.0f\t1' 65536)
    [ "$(tail -n 1 "$work/out")" = $'-\t-\t'"$((roots + 65536))"$'\tunowned\t0\t0\t0\t0\t'"$((512 * (roots + 65535)))"$'\t512' ]
    within 40 explain "$work/x.db"
    ended 1 "$fault"$'\n'"    page $leaf at byte $((512 * (leaf - 1))): in sqlite_schema, child of page *"$'\n'"$unused"$'\n'"    page $((roots + 65536)) at byte $((512 * (roots + 65535))): in no tree, overflow chain or freelist
    looks like a leaf of a table with 0 cells
2 faults
    1 S04 more than 65536 root pages
    1 N01 page is not in use
    1 in sqlite_schema (root page 1), on 1 of its $((roots - 1)) pages
    1 in the whole file
    65536 of 65536 tables and 0 of 0 indexes without a fault"$'\n' ''
    within 40 map "$work/x.db"
    ended 1 "$picture x.db</title>*$((roots + 65536)) pages of 512 bytes *, 2 faults; *>65525 other trees</text>*" ''
}

@test '65536 faults in 65536 tables are counted for each' {
    large tables 65536 10 "$work/x.db"
    damage_roots 65536 "$work/x.db"
    within 40 explain --limit 1 "$work/x.db"
    counted 65536 't%09d'
}

@test 'a picture of 12000 tables has a title of each' {
    large tables 12000 10 "$work/x.db"
    within 40 map "$work/x.db"
    [ "$status" = 0 ]
    sed -n 's/.*<title>\(page .*: root of table .*\)<\/title>.*/\1/p' "$work/out" |
        cmp - <(seq 12000 | awk -v roots="$roots" '{ printf "page %d: root of table t%09d\n", roots + $1 - 1, $1 }')
}

@test 'a million lines and one' {
    cp "$data/empty.db" "$work/x.db"
    sparse "$work/x.db" $((512 * 1000002))
    within 40 check --limit 1000000 "$work/x.db"
    { seq -f 'N01 page %.0f item 0 value 0: page is not in use' 2 1000001 && echo 'more 1'; } > "$work/wanted"
    is_report 1 "$work/wanted"
}

# Page 2097153 is the lock-byte page, which is not lost.
@test 'more than three million rows and as many lines of faults, of more than 128 MiB each' {
    cp "$data/empty.db" "$work/x.db"
    sparse "$work/x.db" $((512 * 3200000))
    within 60 stat --all "$work/x.db"
    [ "$status" = 1 ]
    printf %s "$page" > "$work/rows"
    seq 2 3200000 | awk -v rows="$work/rows" -v faults="$work/faults" '{
        printf "-\t-\t%d\t%s\t0\t0\t0\t0\t%d\t512\n", $1, $1 == 2097153 ? "lock" : "unowned", 512 * ($1 - 1) >> rows
        if ($1 != 2097153) print "N01 page " $1 " item 0 value 0: page is not in use" > faults }'
    cmp "$work/out" "$work/rows"
    cmp "$work/err" "$work/faults"
    [ "$(wc -c < "$work/rows")" -gt 134217728 ]
    [ "$(wc -c < "$work/faults")" -gt 134217728 ]
}

# long_file GIB: makes a file of so many GiB whose pages are all in use, and whose last byte can be reached.
long_file() {
    sparse "$work/none" $(($1 << 30))
    rm "$work/none"
    large long "$1" "$work/x.db"
}

# at PAGE: the offset of a page of 65536 bytes.
at() {
    echo $((65536 * ($1 - 1)))
}

# is_known GIB: every command knows what such a file has where.
is_known() {
    local tree
    long_file "$1"
    [ "$root" -gt $(($1 << 13)) ]
    within 60 check "$work/x.db"
    ended_exactly 0 $'ok\n' ''
    within 60 explain "$work/x.db"
    ended_exactly 0 $'ok\n' ''
    within 60 stat "$work/x.db"
    # The row of the schema has 34 bytes, and that of the table 139263, of which 8199 are on its page.
    tree=$'sqlite_schema\t/\t1\tleaf\t1\t34\t65390\t34\t0\t65536\n'
    tree+=$'t\t/\t'"$root"$'\tinternal\t1\t0\t65517\t0\t'"$(at "$root")"$'\t65536\n'
    tree+=$'t\t/000/\t'"$left"$'\tleaf\t1\t8199\t57319\t139263\t'"$(at "$left")"$'\t65536\n'
    tree+=$'t\t/000/000+000000\t'"$first"$'\toverflow\t0\t65532\t0\t0\t'"$(at "$first")"$'\t65536\n'
    tree+=$'t\t/000/000+000001\t'"$last"$'\toverflow\t0\t65532\t0\t0\t'"$(at "$last")"$'\t65536\n'
    tree+=$'t\t/001/\t'"$right"$'\tleaf\t1\t0\t65522\t0\t'"$(at "$right")"$'\t65536\n'
    ended_exactly 0 "$tree" ''
    within 60 map "$work/x.db"
    ended 0 "$picture x.db</title>*>$pages pages of 65536 bytes ($(($1 << 10)).0 MiB), no fault; *<text x=\"580\" y=\"40\" text-anchor=\"end\">5</text><text x=\"710\" y=\"40\" text-anchor=\"end\">2</text>*" ''
}

# is_damaged GIB: faults of far pages have their numbers, and explain says where they are.
is_damaged() {
    long_file "$1"
    # The last overflow page names page 7; the last leaf of the last trunk is page 1, and the page that it was is lost.
    put_at "$work/x.db" "$(at "$last")" '\0\0\0\07'
    put_at "$work/x.db" $(($(at "$trunk") + 8 + 4 * (leaves - 1))) '\0\0\0\01'
    chain="O01 page $last item 0 value 7: last overflow page names a next page"
    list="R03 page $trunk item $((leaves - 1)) value 1: page is already in use"
    lost_page="N01 page $lost item 0 value 0: page is not in use"
    count="H10 page 1 item 0 value $((pages - 8)): freelist count differs from the header"
    within 60 check "$work/x.db"
    ended_exactly 1 "$chain"$'\n'"$list"$'\n'"$count"$'\n'"$lost_page"$'\n' ''
    within 60 explain "$work/x.db"
    ended 1 "$chain
    page $last at byte $(at "$last"): in table t, overflow page after page $first
    page 7 at byte 393216: leaf of the freelist
    chain of page $left item 0, rowid 1: 2 of 2 pages
*$list
    page $trunk at byte $(at "$trunk"): trunk of the freelist
    page 1 at byte 0: root of sqlite_schema
$count
    header: $((pages - 7))
$lost_page
    page $lost at byte $(at "$lost"): in no tree, overflow chain or freelist
    all zeros
4 faults
*    1 in table t (root page $root), on 1 of its 5 pages
        rows cut short: 1
    1 in the freelist*, on 1 of its $((pages - 8)) pages
    2 in the whole file
    page $lost is zeros: bytes $(at "$lost") to $(($(at "$lost") + 65535))
    0 of 1 table and 0 of 0 indexes without a fault"$'\n' ''
}

@test 'a file of 300 GiB is sound where each of its pages is' {
    is_known 300
}

@test 'faults of a file of 300 GiB have the pages where they are' {
    is_damaged 300
}

@test 'a file of 4 TiB, the greatest, is sound where each of its pages is' {
    is_known 4096
}

@test 'faults of the greatest file have the pages where they are' {
    is_damaged 4096
}

# The root has one cell, of the last five bytes of its page: a child, and a key of one byte. With that child two overflow pages are lost.
@test 'mend finds the number of a child above 4 GiB' {
    local place
    long_file 5
    place=$(($(at "$root") + 65531))
    put_at "$work/x.db" "$place" '\0\0\0\0'
    within 20 mend "$work/x.db"
    ended_exactly 1 $'4 faults\n'"at byte $place put $(printf %08x "$left") for 00000000"$'\n'"    page $root at byte $(at "$root")"$'\nok\n' ''
}

# in_room BYTES WORDS..: the program ends within what is said of the memory for the greatest number of pages: 7 MiB, and so many bytes for each
# eight pages.
in_room() {
    status=0
    (ulimit -v $((7 * 1024 + $1 * 8192)) && exec timeout 300 "$DBCK" "${@:2}" > "$work/out" 2> "$work/err" < /dev/null 3>&-) || status=$?
}

# are_quick WHAT: explain and map of lost.db, which has faults, end within $most seconds.
are_quick() {
    local words
    for words in 'explain --limit 1' map; do
        # shellcheck disable=SC2086
        dbck $words "$work/lost.db"
        row "$words of $1" [ "$status" = 1 ]
    done
}

@test 'a million lost pages take explain and map little time' {
    cp "$data/empty.db" "$work/lost.db"
    sparse "$work/lost.db" $((512 * 1000002))
    most=20
    are_quick 'a million lost pages'
}

@test 'a row of 600000 pages takes little time, memory and stack' {
    local words
    row_of 600000 512 "$work/x.db"
    most=20
    for words in check explain map stat 'stat --aggregate'; do
        # shellcheck disable=SC2086
        in_stack 20480 $words "$work/x.db"
        row "$words of a row of 600000 pages" ended 0 '*' ''
    done
}

@test 'half a million runs of lost pages take little time' {
    needs python3
    cp "$data/empty.db" "$work/lost.db"
    sparse "$work/lost.db" $((512 * 1000001))
    # Every second page is not zeros.
    python3 - "$work/lost.db" << 'END'
import os, sys
lost = os.open(sys.argv[1], os.O_WRONLY)
for page in range(2, 1000001, 2):
    os.pwrite(lost, b"x", 512 * page + 511)
END
    most=30
    are_quick 'half a million runs'
}

@test 'pages of thousands of cells in any order, and of thousands of freeblocks, take little time' {
    needs sqlite3
    sqlite3 "$work/x.db" 'PRAGMA page_size = 65536; PRAGMA cache_size = -100000; CREATE TABLE t(a INTEGER PRIMARY KEY, b); CREATE INDEX i ON t(a);
        WITH RECURSIVE k(n) AS (SELECT 1 UNION ALL SELECT n + 1 FROM k WHERE n < 400000) INSERT INTO t SELECT 7919 * n % 400009, NULL FROM k'
    most=20
    exactly 0 $'ok\n' '' check "$work/x.db"
    sqlite3 "$work/x.db" 'DELETE FROM t WHERE a % 2'
    exactly 0 $'ok\n' '' check "$work/x.db"
}

@test 'explain and map of the greatest number of pages, nearly all of them zeros' {
    [ "${DBCK_LARGE:-}" ] || skip 'takes minutes: DBCK_LARGE=1 runs it'
    cp "$data/empty.db" "$work/x.db"
    sparse "$work/x.db" $((1 << 35))
    in_room 67 explain "$work/x.db"
    ended_exactly 1 'N01 page 2 item 0 value 0: page is not in use
    page 2 at byte 512: in no tree, overflow chain or freelist
    all zeros
    and 67108861 more pages like it: 3 to 2097152, 2097154 to 67108864
67108862 faults
    67108862 N01 page is not in use
    67108862 in the whole file
    pages 2 to 2097152 are zeros: bytes 512 to 1073741823
    pages 2097154 to 67108864 are zeros: bytes 1073742336 to 34359738367
    0 of 0 tables and 0 of 0 indexes without a fault
' ''
    in_room 68 map "$work/x.db"
    ended 1 "$picture x.db</title>*>67108864 pages of 512 bytes (32768.0 MiB), 67108862 faults; a square is 4096 pages, *</svg>"$'\n' ''
}

@test 'lines of the most words that there can be' {
    cp "$data/empty.db" "$work/x.db"
    cd "$work"
    exactly 0 "$tree" '' stat --aggregate --all --no-progress -- x.db
    exactly 0 "$tree" '' stat --no-progress --all --aggregate -- x.db
    exactly 0 $'ok\n' '' check --limit 5 --no-progress -- x.db
    exactly 0 $'ok\n' '' explain --no-progress --limit 5 -- x.db
    expect 0 "$picture x.db</title>*" '' map --no-progress -- x.db
    exactly 0 "$tree" '' stat --all x.db --aggregate --no-progress
    exactly 0 $'ok\n' '' check --limit 5 x.db --no-progress --
}

@test 'a line of thousands of words is refused for its words' {
    # shellcheck disable=SC2046
    dbck check x $(seq 20000)
    [ "$status" = 2 ]
    [ "$(head -n 1 "$work/err")" = "dbck: unexpected argument '1' found" ]
    dbck check "$(printf '%0100000d' 0)" x
    [ "$status" = 2 ]
    # A path that is longer than the system takes.
    long=$(printf '%0100000d' 0)
    exactly 4 '' "dbck: note: $long: File name too long"$'\n'"$unread" check "$long"
}

# Where pages of 4096 bytes follow one another, several are read at once, and those of pages 32 to 63 have all but the last of the chain. Page
# 262145 is the lock-byte page.
@test 'a page above 4 GiB is not taken for one of those that were read at once below it' {
    large far "$work/x.db"
    # Of 1048640 pages these are in use: 1 to 40, the lock-byte page, and 1048612 to 1048640, of which the last ends the chain.
    exactly 1 $'N01 page 41 item 0 value 0: page is not in use\nmore 1048569\n' '' check --limit 1 "$work/x.db"
}

# high SIZE BITS: of a file whose last pages, of this size, up to 400, alone are above so many bits, these and the first two are in use. One of
# the others is the lock-byte page.
high() {
    large high "$1" "$2" "$work/x.db"
    is_high "$@"
}
is_high() {
    dbck check --limit 1 "$work/x.db"
    ended_exactly 1 $'N01 page 3 item 0 value 0: page is not in use\nmore '$(((1 << $2) / $1 - 4))$'\n' ''
}

# Those of 4096 bytes are read in longer and longer reads, and of longer ones some in two parts.
@test 'leaves that follow one another above 4 GiB are read from where they are' {
    local size
    for size in 4096 8192 16384 32768 65536; do row "leaves of $size bytes" high "$size" 32; done
}

# A slow disk is read by MiBs, and a turning one by more of them.
@test 'leaves of each size far above 4 GiB are read from where they are, also from a disk' {
    local bits micros size
    while read -r size bits; do
        as=()
        row "leaves of $size bytes" high "$size" "$bits"
        for micros in 100 3000; do
            on_disk "SLOW=$micros"
            row "leaves of $size bytes, in $micros microseconds" is_high "$size" "$bits"
        done
    done << 'END'
512 34
1024 35
2048 36
4096 37
8192 38
16384 38
32768 38
65536 38
END
    [ "$rows" = 24 ]
}

# 2^32 bytes after the page and 265 more.
@test 'bytes after the last page are counted one by one in a file of more than 4 GiB' {
    changed x 28 '\0\0\0\01'
    sparse "$work/x.db" $(((1 << 32) + 777))
    exactly 0 $'ok\n' $'dbck: note: 4294967561 bytes after page 1 are not read, 8388608 whole pages among them\n' check "$work/x.db"
}

# Where the file system has such lengths.
@test 'a file of a PiB takes no memory for its length' {
    local folder memory
    needs python3
    folder=$(mktemp -d /dev/shm/dbck.XXXXXX) || skip 'there is no /dev/shm'
    cp "$data/empty.db" "$folder/x.db"
    if ! truncate -s 1P "$folder/x.db"; then
        rm -r "$folder"
        skip 'no file of a PiB here'
    fi
    python3 tests/program/io.py "$work/counts" "$DBCK" check "$folder/x.db" > "$work/out" 2> "$work/err"
    rm -r "$folder"
    read -r status _ _ memory < "$work/counts"
    [ "$status" = 3 ]
    [ "$memory" -lt 65536 ] || fail "$memory KiB"
}
