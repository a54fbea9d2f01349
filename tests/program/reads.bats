# What is read of a file, as the system counts it: bytes and calls of a process, without those of a run that opens no file.
load common

setup_file() {
    command -v python3 > /dev/null && [ -r /proc/self/io ] || export CANNOT_COUNT=1
}

# counted WORDS..: runs the program, whose $bytes and $calls are those that it read, and $memory the most KiB that it had; `options` go to
# io.py.
options=()
counted() {
    [ ! "${CANNOT_COUNT:-}" ] || skip 'there is no python3, or no /proc/self/io'
    if [ ! "${none:-}" ]; then
        python3 tests/program/io.py "$work/counts" "$DBCK" check "$work/none" 2> "$work/err"
        read -r _ none zero _ < "$work/counts"
    fi
    python3 tests/program/io.py "$work/counts" "${options[@]}" "$DBCK" "$@" > "$work/out" 2> "$work/err" < /dev/null
    read -r status bytes calls memory < "$work/counts"
    bytes=$((bytes - none))
    calls=$((calls - zero))
}

# counted_on_disk SETTING..: the runs that are counted have their files on such a disk: see disk.c.
counted_on_disk() {
    on_disk "$@"
    options=("${as[@]}")
}

# reads BYTES CALLS WORDS..: the program reads exactly so many bytes, by at most so many calls. A read that takes long counts as one from a
# device, after which the MiB around it is read as a whole; so this is of the best of many runs. What is read twice is so in each.
reads() {
    local most=0
    for _ in {1..40}; do
        counted "${@:3}"
        [ "$bytes" != "$1" ] || [ "$calls" -gt "$2" ] || return 0
    done
    fail "$(printf '%s ' "${@:3}"): $bytes bytes by $calls calls, not $1 by $2"
}

# reads_at_most BYTES WORDS..: the program reads so many bytes at most, in the best of some runs, as above.
reads_at_most() {
    for _ in {1..10}; do
        counted "${@:2}"
        [ "$bytes" -gt "$1" ] || return 0
    done
    fail "${*:2}: $bytes bytes, not at most $1"
}

# whole_mibs: the number of each MiB that the last run on a disk with READS=$work/reads read as a whole, in the order of the reads.
whole_mibs() {
    awk '$1 == 1048576 { print $2 / 1048576 }' "$work/reads"
}

# pages_of TYPE..: how many rows of the last run of `stat --all` have one of these types.
pages_of() {
    local type count=0
    for type in "$@"; do
        count=$((count + $(cut -f 4 "$work/out" | grep -cx "$type" || true)))
    done
    echo "$count"
}

@test 'a file in memory is read once, and its header' {
    row_of 300 65536 "$work/x.db"
    for words in check stat 'stat --all --aggregate' explain map mend; do
        # Each page is one call, and two where it is the first of a MiB; and one is the header's.
        # shellcheck disable=SC2086
        reads $((100 + size)) $((1 + size / 65536 + size / 1048576 + 1)) $words "$work/x.db"
        [ "$status" = 0 ]
    done
}

@test 'pages that follow one another are read many at once, and still once' {
    for size in 512 4096; do
        row_of 9000 "$size" "$work/x.db"
        for words in check 'stat --aggregate' explain map mend; do
            # shellcheck disable=SC2086
            reads $((100 + size)) $((size / 262144 + 16)) $words "$work/x.db"
            [ "$status" = 0 ]
        done
        rm "$work/x.db"
    done
}

# runs_of LENGTH SIZE FILE: a sound database of a table's one row in pages of SIZE bytes, of $size bytes. 2 MiB of its overflow pages follow one
# another. After them come runs of LENGTH pages that do, each before the run that it follows.
runs_of() {
    local first=$((2097152 / $2)) runs=$((4194304 / $2 / $1))
    needs python3
    row_of $((2 + first + runs * $1)) "$2" "$3"
    python3 - "$@" "$first" "$runs" << 'END'
import sys
length, size, path, first, runs = (int(word) if word.isdigit() else word for word in sys.argv[1:])
chain = [*range(3, 3 + first), *(3 + first + length * run + k for run in reversed(range(runs)) for k in range(length))]
with open(path, "r+b") as file:
    for page, after in zip(chain, [*chain[1:], 0]):
        file.seek(size * (page - 1))
        file.write(after.to_bytes(4, "big"))
END
    [ "$(sqlite3 "$3" 'PRAGMA integrity_check')" = ok ] && [ "$size" = $((first * $2 + runs * $1 * $2 + 2 * $2)) ]
}

# Two pages are too few for a longer read. Six begin one, and this is as short as the first, not as long as the last one before.
@test 'where few pages follow one another, also after many that do, no more than twice the file is read' {
    while read -r length page_size; do
        rm -f "$work/x.db"
        runs_of "$length" "$page_size" "$work/x.db"
        for words in check 'stat --aggregate' explain map mend; do
            # shellcheck disable=SC2086
            row "$words: runs of $length pages of $page_size bytes" reads_at_most $((2 * size)) $words "$work/x.db"
            row "$words: a sound file" [ "$status" = 0 ]
        done
    done << 'END'
2 512
6 4096
END
    [ "$rows" = 20 ]
}

@test 'what is not looked at is not read' {
    # A page that is used, and 20000 that are not: only explain and map look at these.
    cp "$data/empty.db" "$work/x.db"
    sparse "$work/x.db" $((512 * 20001))
    for words in check 'check --limit 20000' stat 'stat --all'; do
        # shellcheck disable=SC2086
        reads 612 2 $words "$work/x.db"
        [ "$status" = 1 ]
    done
    for words in explain map; do
        reads $((100 + 512 * 20001)) $((512 * 20001 / 262144 + 16)) $words "$work/x.db"
        [ "$status" = 1 ]
    done
}

@test 'no leaf of the freelist is read, nor by mend of a damaged file' {
    row_of 300 65536 "$work/x.db"
    sqlite3 "$work/x.db" 'DELETE FROM t'
    [ "$(wc -c < "$work/x.db")" = "$size" ]
    # Pages 1 and 2 and the trunk.
    for words in check 'stat --all' explain map mend; do
        # shellcheck disable=SC2086
        reads $((100 + 3 * 65536)) 8 $words "$work/x.db"
        [ "$status" = 0 ]
    done
    # In all its runs, and looks for lost pages, mend reads less than the file.
    put_at "$work/x.db" 72 '\01'
    reads_at_most $((size - 1)) mend "$work/x.db"
    [ "$(tail -n 1 "$work/out")" = ok ]
}

# The first schema format that is tried is the right one. Page 1 and all others are read once with the wrong one, and once with that.
@test 'mend tries no more once no fault is left' {
    row_of 300 65536 "$work/x.db"
    put_at "$work/x.db" 44 '\0\0\0\011'
    reads_at_most $((2 * size + 1048576)) mend "$work/x.db"
    [ "$(tail -n 1 "$work/out")" = ok ]
}

@test 'mend looks at each lost page once, and at few of them twice' {
    cp "$data/empty.db" "$work/x.db"
    sparse "$work/x.db" $((512 * 20001))
    put_at "$work/x.db" 28 '\0\0\0\0'
    reads_at_most $((512 * 20001 + 1048576)) mend "$work/x.db"
    ended_exactly 1 $'20000 faults\n20000 faults are left\n' ''
}

@test 'of a refused file the header alone is read, once; by mend also with each of ten changes' {
    for command in check explain map stat; do
        reads 100 1 "$command" tests/slow.py
        [ "$status" = 3 ]
    done
    reads 1100 11 mend tests/slow.py
    [ "$status" = 3 ]
    changed page-size 16 '\03'
    sparse "$work/page-size.db" 10000000
    changed few 0 S
    truncate -s 99 "$work/few.db"
    cp "$data/empty.db" "$work/many.db"
    sparse "$work/many.db" 34359738880
    for command in check explain map stat; do
        reads 100 1 "$command" "$work/page-size.db"
        reads 100 1 "$command" "$work/many.db"
    done
    for command in "${five[@]}"; do
        reads 0 0 "$command" "$work/few.db"
        [ "$status" = 3 ]
    done
}

@test 'nothing is read of what is not opened' {
    mkdir "$work/folder"
    mkfifo "$work/pipe"
    for name in "$work/folder" "$work/pipe" /dev/zero "$work/missing" /proc/self/mem; do
        for command in "${five[@]}"; do
            reads 0 0 "$command" "$name"
            [ "$status" = 4 ]
        done
    done
}

@test 'a read that failed is not asked for again' {
    # It has fewer bytes than it says: a call gets these, and a second one none.
    lying=/sys/devices/system/cpu/online
    [ -f "$lying" ] || skip "there is no $lying"
    for command in "${five[@]}"; do
        reads "$(cat "$lying" | wc -c)" 2 "$command" "$lying"
        [ "$status" = 4 ]
    done
}

# A read that comes to the block ends before it, and the next one, of the rest of the page, fails; of a page that begins with the block the
# first one does. Of a slow disk the MiB around it is read before. A longer read of pages of 4096 bytes ends there too, the next one fails,
# and then one of the page alone.
@test 'of a block that cannot be read no read is made again' {
    local bad disk error fast page_size slow
    while read -r page_size bad fast slow error; do
        rm -f "$work/x.db"
        row_of $((20000000 / page_size)) "$page_size" "$work/x.db"
        for disk in "${disks[@]}"; do
            rm -f "$work/reads"
            on_disk "$disk" "BAD=$bad" "ERROR=$error" NAME=/x.db "READS=$work/reads"
            dbck check "$work/x.db"
            row "the run where $disk" ended 4 '' "*$unread"
            [ "$disk" = SLOW=0 ] || fast=$slow
            row "reads of a page of $page_size bytes with a bad block at $bad, error $error, where $disk" \
                [ "$(awk -v bad="$bad" '$2 < bad + 4096 && $1 + $2 > bad' "$work/reads" | wc -l)" = "$fast" ]
        done
        as=()
    done << 'END'
65536 2129920 2 3 5
65536 2129920 2 3 61
65536 2097152 1 1 5
65536 2260992 2 3 5
4096 4194304 3 3 5
4096 4194304 3 3 61
4096 4202496 3 3 5
END
    [ "$rows" = 28 ]
}

@test 'nothing is read after a read that failed' {
    # The rows fill a pipe while most pages are still to be read, and then the file is cut to its first page: the next read gets no byte.
    row_of 20000 512 "$work/x.db"
    needs python3
    options=(--cut "$work/x.db")
    counted stat --all "$work/x.db"
    [ "$status" = 4 ]
    rows=$(wc -l < "$work/out")
    grep -q "x.db: the 512 bytes at $((512 * rows)) cannot be read" "$work/err"
    # Longer reads as far as it came, and a few that got nothing.
    [ "$calls" -lt $((512 * rows / 262144 + 40)) ] || fail "$calls calls for $rows rows"
}

@test 'a file that is not in memory is read at most twice, and its header' {
    needs python3
    for size in 4096 65536; do
        row_of $((30000000 / size)) "$size" "$work/x.db"
        options=(--forget "$work/x.db")
        counted check "$work/x.db"
        [ "$status" = 0 ]
        [ "$bytes" -ge $((100 + size)) ]
        [ "$bytes" -le $((100 + 2 * size + 1048576)) ] || fail "$bytes bytes of $size"
        rm "$work/x.db"
    done
}

@test 'nothing is read once the output takes nothing' {
    row_of 60000 512 "$work/x.db"
    for words in 'stat' 'stat --all'; do
        # Rows are handed on by at least 32 KiB, which is less than 2000 rows.
        # shellcheck disable=SC2086
        python3 tests/program/io.py "$work/counts" "$DBCK" $words "$work/x.db" > /dev/full 2> "$work/err"
        read -r status bytes _ < "$work/counts"
        [ "$status" = 6 ]
        [ "$bytes" -lt 3000000 ]
    done
}

@test 'of a file on a disk each MiB is read as a whole, and then its pages' {
    needs python3
    row_of 300 65536 "$work/x.db"
    counted_on_disk SLOW=1000 "READS=$work/reads"
    for words in check explain mend; do
        rm -f "$work/reads"
        counted "$words" "$work/x.db"
        [ "$status" = 0 ]
        # 300 pages of 65536 bytes are 18 MiB and a part of one.
        whole_mibs | cmp - <(seq 0 18)
        # All but the first MiB, by which it is known that the reads are slow, or nearly so.
        [ "$bytes" -gt $((2 * size - 2097152)) ] || fail "$words: $bytes bytes of $size"
        [ "$bytes" -lt $((2 * size + 2097152)) ] || fail "$words: $bytes bytes of $size"
    done
}

@test 'of a fast disk each MiB is read as a whole too, and of a file beyond 64 GiB' {
    needs python3
    row_of 300 65536 "$work/x.db"
    on_disk SLOW=60 "READS=$work/reads"
    exactly 0 $'ok\n' '' check "$work/x.db"
    row 'a fast disk' cmp <(whole_mibs) <(seq 0 18)
    rm "$work/reads"
    sparse "$work/large.db" 78662860800
    large beyond "$work/large.db"
    on_disk SLOW=1000 "READS=$work/reads"
    expect 1 'N01 page 3 *' '' check --limit 1 "$work/large.db"
    row 'a large file' cmp <(whole_mibs) <(echo 0 && seq 75000 75018)
}

# A read of 65536 bytes may take some time from memory too, so only the first 4096 are timed.
@test 'where the beginning of each page is read quickly no MiB is read as a whole, however long the rest takes' {
    needs python3
    row_of 300 65536 "$work/x.db"
    counted_on_disk SLOW=100 QUICK=4096
    reads_at_most $((size + size / 2)) check "$work/x.db"
    [ "$status" = 0 ]
}

# On an SSD a read takes less than 2 ms, on a turning disk longer.
@test 'each MiB of a file on a turning disk is read as a whole, and then its pages' {
    needs python3
    row_of 300 65536 "$work/x.db"
    counted_on_disk SLOW=9000
    counted check "$work/x.db"
    [ "$status" = 0 ]
    [ "$bytes" -gt $((2 * size - 2097152)) ] || fail "$bytes bytes of $size"
    [ "$bytes" -lt $((2 * size + 2097152)) ] || fail "$bytes bytes of $size"
}

# All 300 pages are read, but the header states that all but 3 are in the freelist, and then all but 2.
@test 'a turning disk reads each MiB as a whole where one page in 100 is used, and none where one in 150 is' {
    needs python3
    row_of 300 65536 "$work/x.db"
    counted_on_disk SLOW=2500
    put_at "$work/x.db" 36 '\0\0\01\051'
    counted check "$work/x.db"
    [ "$status" = 1 ]
    [ "$bytes" -gt $((2 * size - 2097152)) ] || fail "one in 100: $bytes bytes of $size"
    put_at "$work/x.db" 36 '\0\0\01\052'
    counted check "$work/x.db"
    [ "$status" = 1 ]
    [ "$bytes" -lt $((size + 65536)) ] || fail "one in 150: $bytes bytes of $size"
}

@test 'of a file that is mostly free a disk reads what is used' {
    needs python3
    row_of 300 65536 "$work/x.db"
    sqlite3 "$work/x.db" 'DELETE FROM t'
    counted_on_disk SLOW=1000
    counted check "$work/x.db"
    [ "$status" = 0 ]
    # Pages 1 and 2 and the trunk, each perhaps with what comes after it.
    [ "$bytes" -lt $((100 + 8 * 65536)) ] || fail "$bytes bytes of $size"
}

@test 'of a file with much after its last page a disk reads its pages, and no MiB as a whole' {
    needs python3
    row_of 2 65536 "$work/x.db"
    truncate -s $((300 * 65536)) "$work/x.db"
    counted_on_disk SLOW=1000
    counted check "$work/x.db"
    [ "$status" = 0 ]
    [ "$bytes" -lt $((100 + 8 * 65536)) ] || fail "$bytes bytes"
}

# Page 1 is not read from the file then, so the share of pages in use is known by a read of its header alone.
@test 'of a file that is mostly free a disk reads what is used, also where page 1 is in a log' {
    needs python3
    row_of 300 65536 "$work/x.db"
    sqlite3 "$work/x.db" 'DELETE FROM t'
    counted_on_disk SLOW=1000
    journal_of "$work/x.db" <<< 1
    counted check --recovered "$work/x.db"
    row 'the page of a journal' grep -q 'journal: 1 page .* read from it' "$work/err"
    log=$(wc -c < "$work/x.db-journal")
    # Pages 2 and 3, each perhaps with what comes after it, and the journal, perhaps twice.
    row "$bytes bytes beside a journal of $log" [ "$bytes" -lt $((100 + 8 * 65536 + 2 * log)) ]
    rm "$work/x.db-journal"
    logged x 65536 << 'END'
INSERT INTO t VALUES (zeroblob(298 * 65532))
DELETE FROM t
PRAGMA wal_checkpoint(TRUNCATE)
CREATE TABLE u(a)
END
    counted check --recovered "$work/x.db"
    row 'the pages of a -wal' grep -q 'wal: . pages of 1 transaction are read from it' "$work/err"
    log=$(wc -c < "$work/x.db-wal")
    row "$bytes bytes beside a -wal of $log" [ "$bytes" -lt $((100 + 8 * 65536 + 2 * log)) ]
}

# The first slow read asks for it, and none after that does.
@test 'the header of a file whose page 1 is in a log is asked for once, also where it cannot be read' {
    needs python3
    row_of 300 65536 "$work/x.db"
    journal_of "$work/x.db" <<< 1
    on_disk SLOW=1000 AT=0 NAME=/x.db "READS=$work/reads"
    expect 0 $'ok\n' '*journal: 1 page is read from it; *' check --recovered "$work/x.db"
    row 'reads of the header' [ "$(grep -cx '100 0' "$work/reads")" = 1 ]
}

# After three reads that go back a slow one takes 16 MiB, after six 256, and never more, here of 5.5 GiB.
@test 'where a disk reads a file from its end on, it takes 256 MiB at once at most, and no memory for them' {
    large back 10 "$work/x.db"
    counted_on_disk SLOW=1000 "READS=$work/reads"
    counted check --limit 1 "$work/x.db"
    [ "$(cat "$work/out")" = $'N01 page 3 item 0 value 0: page is not in use\nmore 360434' ] # of 360448 pages 13 are in use
    # Four pages with their MiB, three with their 16 MiB, and four with 256.
    whole_mibs | cmp - <(printf '%s\n' 0 5120 4608 4096 {3584..3599} {3072..3087} {2560..2575} {2048..2303} {1536..1791} {1024..1279} {512..767})
    [ "$bytes" -gt $((1024 * 1048576)) ] || fail "$bytes bytes"
    [ "$bytes" -lt $((1100 * 1048576)) ] || fail "$bytes bytes"
    [ "$memory" -lt 65536 ] || fail "$memory KiB"
}

# Every other read goes back.
@test 'where a disk reads two parts of a file by turns, each from its end on, it takes 16 MiB at once' {
    large halves 10 "$work/x.db"
    on_disk SLOW=1000 "READS=$work/reads"
    expect 1 'N01 page 3 *' '' check --limit 1 "$work/x.db"
    # Six pages with their MiB, and five with their 16 MiB.
    whole_mibs | cmp - <(printf '%s\n' 0 5120 2560 4608 2048 4096 {1536..1551} {3584..3599} {1024..1039} {3072..3087} {512..527})
}

# The header states that a tenth is used, which of 256 MiB is 25 whole ones.
@test 'where a disk reads a file from its end on of which a tenth is used, it takes 25 MiB at once at most' {
    large back 10 "$work/x.db"
    # Of 360448 pages 324403 are in the freelist: 4f333 in hexadecimal.
    put_at "$work/x.db" 36 '\x00\x04\xf3\x33'
    counted_on_disk SLOW=1000
    counted check --limit 1 "$work/x.db"
    [ "$status" = 1 ]
    # Four pages with their MiB, three with their 16 MiB, and four with 25.
    [ "$bytes" -gt $((140 * 1048576)) ] || fail "$bytes bytes"
    [ "$bytes" -lt $((160 * 1048576)) ] || fail "$bytes bytes"
}

# Of the second file little is used, so that no MiB is read as a whole, at the last time.
@test 'pages of each size that a slow disk gives in any order are what the file has' {
    local kept='INSERT INTO t SELECT 7919 * n % 8009, randomblob(3000) FROM k' numbers='WITH RECURSIVE k(n) AS (SELECT 1 UNION ALL SELECT n + 1 FROM k)'
    needs sqlite3
    for size in 512 1024 2048 4096 8192 16384 32768 65536; do
        rm -f "$work"/{full,free}.db
        sqlite3 "$work/full.db" "PRAGMA page_size = $size; CREATE TABLE t(a INTEGER PRIMARY KEY, b); $numbers $kept LIMIT 4000"
        sqlite3 "$work/free.db" "PRAGMA page_size = $size; BEGIN; CREATE TABLE t(a INTEGER PRIMARY KEY, b); CREATE TABLE gone(a); $numbers $kept LIMIT 40;
            $numbers INSERT INTO gone SELECT zeroblob(2000000) FROM k LIMIT 20; $numbers $kept LIMIT 40 OFFSET 40; DROP TABLE gone; COMMIT"
        on_disk SLOW=100
        exactly 0 $'ok\n' '' check "$work/full.db"
        exactly 0 $'ok\n' '' check "$work/free.db"
        on_disk SLOW=3000
        exactly 0 $'ok\n' '' check "$work/free.db"
        as=()
    done
    [ "$rows" = 24 ]
}

@test 'of a log no more is read than is needed' {
    local name
    with_zeros
    for name in "${logs[@]}"; do
        row "bytes beside $name" reads_at_most 2200000 check --recovered "$work/${name%-*}"
        row "the report beside $name" [ "$(cat "$work/out")" = ok ]
    done
}
