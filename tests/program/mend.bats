#!/usr/bin/env bats
# `mend`: the changes with which a file has no fault, or fewer. Nothing is written to the file.
load common

fixed=$'2 faults\nat byte 1526 put 00000007 for 00000005\n    page 3 at byte 1024\nok\n'

# changes_of FILE: puts the changes that a file of lines says into $changes, as options.
changes_of() {
    mapfile -t changes < <(sed -n 's/^at byte \([0-9]*\) put \([0-9a-f]*\) for .*/--with=\1=\2/p' "$1")
}

# is_sound_so FILE LINES: `check` of the file with the changes of these lines says ok.
is_sound_so() {
    changes_of "$2"
    dbck check "${changes[@]}" "$1"
    [ "$status" = 0 ] && [ "$(< "$work/out")" = ok ]
}

# are_put FILE LINES: in a copy the changes are made as docs/REPAIR.md says, and `check` says ok of it.
are_put() {
    local at bytes
    cp "$1" "$work/put.db"
    while read -r at bytes; do
        # shellcheck disable=SC2001
        env printf "$(sed 's/../\\x&/g' <<< "$bytes")" | dd of="$work/put.db" bs=1 seek="$at" conv=notrunc status=none
    done < <(sed -n 's/^at byte \([0-9]*\) put \([0-9a-f]*\) for .*/\1 \2/p' "$2")
    dbck check "$work/put.db"
    [ "$status" = 0 ]
}

@test 'mend says what was there, and writes nothing to the file' {
    cp "$data/two-tables.db" "$work/x.db"
    exactly 1 "$fixed" '' mend "$work/x.db"
    exactly 1 "$fixed" '' mend --no-progress --limit=16 -- "$work/x.db"
    cmp "$work/x.db" "$data/two-tables.db"
    exactly 0 $'ok\n' '' mend "$data/whole.db"
}

@test 'mend writes of each database of tests/small/mend.txt what stands there, and with that it is sound' {
    local wanted
    small mend
    while IFS='|' read -r number limit name; do
        [ "$limit" != 100 ] || limit=8
        dbck mend --limit "$limit" "$work/small/$number.db"
        row "mend --limit $limit $name" diff "$work/small/$number.text" "$work/out"
        wanted=1
        [ "$(< "$work/small/$number.text")" != ok ] || wanted=0
        row "the status of $name" ended "$wanted" '*' ''
        if [ "$(tail -n 1 "$work/out")" = ok ]; then
            cp "$work/out" "$work/lines"
            row "$name with these changes" is_sound_so "$work/small/$number.db" "$work/lines"
            row "$name with these bytes in a copy" are_put "$work/small/$number.db" "$work/lines"
        fi
    done < "$work/list"
    [ "$rows" -gt 140 ]
}

# is_put_back OFFSET BYTES..: of x.db with these bytes at these offsets mend, with `flags`, writes the changes with which it is as it was. It
# stays so.
is_put_back() {
    cp "$work/x.db" "$work/wrong.db"
    while [ $# -gt 0 ]; do
        put_at "$work/wrong.db" "$1" "$2"
        shift 2
    done
    dbck mend "${flags[@]}" "$work/wrong.db"
    cp "$work/out" "$work/lines"
    are_put "$work/wrong.db" "$work/lines" && cmp "$work/put.db" "$work/x.db"
}

# are_put_back OFFSET BYTES..: is_put_back, and to SQLite the changed copy is sound.
are_put_back() {
    is_put_back "$@" && [ "$(sqlite3 "$work/put.db" 'PRAGMA integrity_check')" = ok ]
}

# has_rows_back OFFSET BYTES..: mend says ok of x.db with these bytes at these offsets, and to SQLite the changed copy is sound and has the rows
# that x.db has.
has_rows_back() {
    is_put_back "$@"
    [ "$(tail -n 1 "$work/lines")" = ok ] &&
        diff <(sqlite3 "$work/x.db" 'PRAGMA integrity_check' .dump) <(sqlite3 "$work/put.db" 'PRAGMA integrity_check' .dump)
}

# made SQL [SIZE]: makes x.db, with pages of 512 bytes, or SIZE.
made() {
    rm -f "$work/x.db"
    sqlite3 "$work/x.db" "PRAGMA page_size = ${2:-512}; $1"
}

# up_to COUNT: the beginning of a statement that takes the numbers n from 1 to COUNT from k.
up_to() {
    echo "WITH RECURSIVE k(n) AS (SELECT 1 UNION ALL SELECT n + 1 FROM k WHERE n < $1)"
}

# place_of TEXT: where it is first in x.db; before NAME: where the bytes before the statement of a table are.
place_of() {
    grep -abo "$1" "$work/x.db" | head -n 1 | cut -d: -f1
}

before() {
    place_of "CREATE TABLE $1("
}

# reserving COUNT SQL: makes x.db, with so many reserved bytes at the end of each page of 512.
reserving() {
    rm -f "$work/x.db"
    sqlite3 "$work/x.db" ".filectrl reserve_bytes $1" "PRAGMA page_size = 512; $2" > "$work/said"
}

# number_at OFFSET [SIZE]: the number of two bytes there in x.db, or of SIZE.
number_at() {
    echo $((16#$(od -An -tx1 -N"${2:-2}" -j"$1" "$work/x.db" | tr -d ' ')))
}

# short NUMBER: its two bytes, as put_at takes them.
short() {
    printf '\\0%03o\\0%03o' $(($1 / 256)) $(($1 % 256))
}

# As put_at takes them: later OFFSET BYTES: the pointer there in x.db, if it led so many bytes later; page_at OFFSET: the number of a page there;
# byte_at OFFSET: the byte there.
later() {
    short $(($(number_at "$1") + $2))
}

page_at() {
    printf '\\0\\0'
    short "$(number_at "$1" 4)"
}

byte_at() {
    printf '\\0%03o' "$(number_at "$1" 1)"
}

@test 'mend finds the roots of tables, of one byte and of two, between those of the rows beside them' {
    needs sqlite3
    made 'CREATE TABLE s(a); INSERT INTO s VALUES (zeroblob(200000)); CREATE TABLE t(a)'
    row 'a root of two bytes' is_put_back $(($(before t) - 2)) '\0177\0176'
    made 'CREATE TABLE t1(a); CREATE TABLE t2(a); CREATE TABLE t3(a); CREATE TABLE t4(a); DROP TABLE t1; CREATE TABLE t5(a);'
    row 'two roots' is_put_back $(($(before t3) - 1)) '\0143' $(($(before t5) - 1)) '\0143'
}

# The cell of t has the number of an overflow page after the bytes of its row.
@test 'mend finds the root of a table whose statement goes on in an overflow page' {
    local columns
    needs sqlite3
    columns=$(printf ", c%d TEXT NOT NULL DEFAULT 'none'" {1..40})
    made "CREATE TABLE s(a); CREATE TABLE t(a$columns); CREATE TABLE u(a); INSERT INTO t(a) VALUES (1)"
    row 'a long statement' [ ${#columns} -gt 1024 ]
    row 'a root of one byte' are_put_back $(($(before t) - 1)) '\0143'
    made "CREATE TABLE s(a); INSERT INTO s VALUES (zeroblob(200000)); CREATE TABLE t(a$columns); CREATE TABLE u(a); INSERT INTO t(a) VALUES (1)"
    row 'a root of two bytes' are_put_back $(($(before t) - 2)) '\0177\0176'
}

# root_at STATEMENT: where the root page, of one byte, is in the row of x.db with a statement that begins so.
root_at() {
    echo $(($(place_of "$1") - 1))
}

# With 0 a row of a table is that of a virtual one, and no fault names it.
@test 'mend finds the root of an index, and of a table without rowids, where it is 0, negative or past the end' {
    local bytes statement
    needs sqlite3
    made 'CREATE TABLE s(a); CREATE TABLE t(a PRIMARY KEY, b) WITHOUT ROWID; CREATE INDEX i ON s(a); CREATE TABLE u(a); INSERT INTO s VALUES (1);
        INSERT INTO t VALUES (2, 3); INSERT INTO u VALUES (4)'
    for statement in 'CREATE TABLE t(' 'CREATE INDEX i ' 'CREATE TABLE u('; do
        for bytes in '\0' '\0377' '\0143'; do
            row "$statement: $bytes" are_put_back "$(root_at "$statement")" "$bytes"
        done
    done
    # The index gets the page of the table that is gone, so its root page is before those of the rows before it.
    made 'CREATE TABLE s(a); CREATE TABLE t(a); CREATE TABLE u(a); DROP TABLE s; CREATE INDEX i ON u(a); INSERT INTO u VALUES (1)'
    for bytes in '\0' '\0377' '\0143'; do
        row "the index in the place of a table: $bytes" are_put_back "$(root_at 'CREATE INDEX i ')" "$bytes"
    done
    # Either root may be that of a table without rowids. Only one of them is a page of a table.
    made "CREATE TABLE s(x); CREATE TABLE t(a, b); DROP TABLE s; CREATE TABLE u(k PRIMARY KEY, v) WITHOUT ROWID;
        INSERT INTO u VALUES (1, 2), (3, 4); INSERT INTO t VALUES ('x', 'y')"
    row 'the table without rowids in the place of a table, and the table' are_put_back \
        "$(root_at 'CREATE TABLE u(')" '\0143' "$(root_at 'CREATE TABLE t(')" '\0143'
    # Later rows have the pages of tables that are gone. A view and a trigger have the root page 0.
    made 'CREATE TABLE s(a); CREATE TABLE t(a); CREATE TABLE u(a); CREATE TABLE v(a); DROP TABLE s; DROP TABLE u; CREATE VIEW w AS SELECT 1;
        CREATE INDEX i ON t(a); CREATE TRIGGER r AFTER INSERT ON v BEGIN SELECT 1; END; CREATE TABLE x(k PRIMARY KEY, b) WITHOUT ROWID;
        INSERT INTO t VALUES (1), (2); INSERT INTO v VALUES (3); INSERT INTO x VALUES (4, 5)'
    row 'roots in no order' [ "$(sqlite3 "$work/x.db" 'SELECT group_concat(rootpage) FROM sqlite_schema')" = 3,5,0,4,0,2 ]
    for statement in 'CREATE TABLE t(' 'CREATE TABLE v(' 'CREATE INDEX i ' 'CREATE TABLE x('; do
        row "$statement of roots in no order" are_put_back "$(root_at "$statement")" '\0'
    done
    [ "$rows" = 18 ]
}

# The rows are on several pages of the schema. Each table has its own root again if the roots are in the order of the rows.
@test 'mend finds which of two rows of the schema names the root page of the other' {
    local table one other
    needs sqlite3
    made "$(printf 'CREATE TABLE t%d(a);' {10..40})"
    row 'page 1 is an interior page' [ "$(type_of 1)" = 5 ]
    for table in {10..39}; do
        one=$(root_at "CREATE TABLE t$table(") other=$(root_at "CREATE TABLE t$((table + 1))(")
        row "t$table, the root of the next" is_put_back "$one" "$(byte_at "$other")"
        row "the root of t$table in the next" is_put_back "$other" "$(byte_at "$one")"
    done
    # A view has no root page.
    made "$(printf 'CREATE TABLE t%d(a); CREATE VIEW v%d AS SELECT 1;' {1..3}{,})"
    for table in 1 2 3; do
        for one in 2 3 4; do
            [ "$one" = $((table + 1)) ] || row "t$table of three, page $one" are_put_back "$(root_at "CREATE TABLE t$table(")" "\\0$one"
        done
    done
    # Each row has a page of the schema to itself.
    made "$(printf 'CREATE TABLE %s(c0'"$(printf ', c%d' {10..69})"'); INSERT INTO %s(c0) VALUES (1);' t t u u)"
    one=$(root_at 'CREATE TABLE t(') other=$(root_at 'CREATE TABLE u(')
    row 'rows on pages of their own' [ $((one / 512)) != $((other / 512)) ]
    row 'the root of the row on the page before' are_put_back "$other" "$(byte_at "$one")"
    [ "$rows" = 69 ]
}

# type_of PAGE: the type of a page of x.db; last_child: the last child of page 1.
type_of() {
    number_at $(($1 == 1 ? 100 : 512 * ($1 - 1))) 1
}
last_child() {
    number_at 108 4
}

@test 'mend finds roots of tables in a schema of three levels' {
    local table
    needs sqlite3
    made "BEGIN; $(printf 'CREATE TABLE t%d(a);' {1..900}) COMMIT"
    row 'interior pages below page 1' [ "$(type_of 1) $(type_of "$(last_child)")" = '5 5' ]
    row 'a root of one byte' are_put_back $(($(before t5) - 1)) '\0122'
    for table in t450 t900; do
        row "the root of $table" are_put_back $(($(before $table) - 2)) '\0177\0176'
    done
}

# The root of u is page 66932, after the 66930 pages of a chain.
@test 'mend finds roots of three bytes, and children of pages above 65536' {
    local at
    needs sqlite3
    made 'CREATE TABLE t(a); INSERT INTO t VALUES (zeroblob(34000000)); CREATE TABLE u(a);
        INSERT INTO u VALUES (zeroblob(300)), (zeroblob(300)), (zeroblob(300));'
    row 'a root of three bytes' is_put_back $(($(before u) - 3)) '\0\0\01'
    at=$(sqlite3 "$work/x.db" "SELECT (rootpage - 1) * 512 + 8 FROM sqlite_schema WHERE name = 'u'")
    row "a child, at $at" is_put_back "$at" '\0\0\0\0'
}

# are_found SIZE: for each line of standard input, PAGE AT WRONG, these bytes are put into x.db, whose pages have SIZE bytes, and mend finds those
# that were there. Standard error is $notes then.
are_found() {
    local begin page at right wrong
    while read -r page at wrong; do
        begin=$(($1 * (page - 1)))
        at=$((begin + at))
        right=$(od -An -v -tx1 -j "$at" -N $((${#wrong} / 2)) "$work/x.db" | tr -d ' \n')
        # shellcheck disable=SC2001
        put_at "$work/x.db" "$at" "$(sed 's/../\\x&/g' <<< "$wrong")"
        dbck mend "$work/x.db"
        row "page $page, put $right" ended 1 "*at byte $at put $right for $wrong"$'\n'"    page $page at byte $begin"$'\nok\n' "${notes-}"
        # shellcheck disable=SC2001
        put_at "$work/x.db" "$at" "$(sed 's/../\\x&/g' <<< "$right")"
    done
    dbck check "$work/x.db"
    row 'each is put back' ended 0 $'ok\n' ''
}

# The root of the table is page 71681, and its leaves are pages 81919 and 76801. Below each of them by 4 GiB is a page of zeros.
@test 'mend finds numbers of pages above 4 GiB' {
    large long 5 "$work/x.db"
    are_found 65536 << 'END'
71681 8 00000000
81919 8 0000
76801 3 0000
81919 0 00
END
    [ "$rows" = 5 ]
}

# The last file is longer than 4 GiB.
@test 'mend finds entries of the pointer map, references, roots and lengths in files of large pages, and how long these are' {
    local notes size pages
    while read -r size pages; do
        large mapped "$size" "$pages" "$work/x.db"
        notes='*'
        are_found "$size" <<< '1 28 00000046'
        [ "$size" != 65536 ] || are_found "$size" <<< '1 16 1000'
        notes=
        # Entries of an overflow page, a leaf and a trunk; the end of a chain, its second page and its first; a leaf of a trunk, also where it
        # names the next one, how many leaves there are, the next trunk, and that there is none; a root; and the length of a payload.
        are_found "$size" << END
$map $((5 * (first - map - 1))) 0000000000
$map $((5 * (leaf - map - 1))) 0000000000
$map $((5 * (trunk - map - 1))) 0000000000
$last 0 00000005
$first 0 00000000
$leaf $((size - 4)) 00000000
$trunk 32 00000000
$trunk 32 0000000c
$trunk 4 0000000c
$trunk 0 00000000
$((trunk + 5)) 0 00000005
$schema $root_at 00000046
$leaf $length_at 98bf7f
END
    done << 'END'
8192 12000
16384 20000
32768 40000
65536 81920
END
    [ "$rows" = 66 ]
}

# The overflow pages of t are those from 4 to 15. The freelist is page 16, a trunk, and its leaves, 22, 21 and 20.
@test 'mend finds which leaves a trunk has and how many, pages of chains and a root in files of each page size' {
    local count size
    needs sqlite3
    for size in 512 1024 2048 4096 8192 16384 32768 65536; do
        made "CREATE TABLE t(a); CREATE TABLE u(a); $(up_to 4) INSERT INTO t SELECT zeroblob(3 * $size) FROM k;
            INSERT INTO u VALUES (zeroblob(7 * $size)); DELETE FROM u; INSERT INTO u VALUES (zeroblob(3 * $size))" "$size"
        row "a trunk of pages of $size bytes" [ "$(number_at 32 4) $(number_at $((15 * size + 4)) 4)" = '16 3' ]
        for count in 0 2 4; do
            row "$count leaves, pages of $size bytes" are_put_back $((15 * size + 4)) "\\0\\0\\0\\0$count"
        done
        row "the leaf before, pages of $size bytes" are_put_back $((15 * size + 16)) '\0\0\0\025'
        row "the page after the next one of a chain, pages of $size bytes" are_put_back $((3 * size)) '\0\0\0\06'
        row "a page of a chain for a root, pages of $size bytes" are_put_back $(($(before t) - 1)) '\06'
    done
    [ "$rows" = 56 ]
}

# Row 5 is gone, and the last row, of seven bytes, is in its place, behind a freeblock.
@test 'mend finds the counts of a page with fragments, and the size of a freeblock before the last cell, in pages of each size' {
    local block cells last len size wrong
    needs sqlite3
    for size in 512 1024 2048 4096 8192 16384 32768 65536; do
        made "CREATE TABLE t(id INTEGER PRIMARY KEY, a); $(up_to $((size / 40))) INSERT INTO t SELECT n, printf('row number %02d', n) FROM k;
            UPDATE t SET a = substr(a, 3) WHERE id % ($size / 200) = 1" "$size"
        cells=$(number_at $((size + 3)))
        row "fragments, $size bytes" [ "$(number_at $((size + 7)) 1)" -gt 5 ]
        row "the counts of a page of $size bytes" are_put_back $((size + 3)) "$(short $((cells + 7)))" $((size + 7)) '\05'
        made "CREATE TABLE t(id INTEGER PRIMARY KEY, a); $(up_to $((size / 60)))
            INSERT INTO t SELECT n, printf('row number %02d and more', n) FROM k; DELETE FROM t WHERE id = 5; INSERT INTO t VALUES (5000, 'x')" "$size"
        block=$((size + $(number_at $((size + 1)))))
        len=$(number_at $((block + 2)))
        last=$(number_at $((size + 6 + 2 * $(number_at $((size + 3))))))
        row "the last cell of a page of $size bytes" [ $((size + last)) = $((block + len)) ]
        for wrong in $((len + 7)) $((len - 1)) $((len - 3)); do
            row "a freeblock of $len of $size bytes, put $wrong" are_put_back $((block + 2)) "$(short "$wrong")"
        done
    done
    [ "$rows" = 48 ]
}

@test 'mend finds the encoding, and roots of each' {
    local at encoding
    needs sqlite3
    for encoding in UTF-8 UTF-16le UTF-16be; do
        made "PRAGMA encoding = '$encoding'; CREATE TABLE t(a); CREATE INDEX i ON t(a); INSERT INTO t VALUES (1)"
        row "$encoding" is_put_back 59 '\07'
        made "PRAGMA encoding = '$encoding'; CREATE TABLE t(a)"
        at=$(LC_ALL=C grep -aboP '\x02(\x00?)C\x00?R\x00?E' "$work/x.db" | head -n 1 | cut -d: -f1)
        row "a root of $encoding" is_put_back "$at" '\0143'
    done
}

# children_of TREE: of each child of its root in x.db, where its number is; pairs_of TREE: of each two of them.
children_of() {
    python3 - "$work/x.db" "$1" << 'END'
import sqlite3, sys
path, tree = sys.argv[1:]
((root,),) = sqlite3.connect(path).execute("SELECT rootpage FROM sqlite_schema WHERE name = ?", (tree,))
data = open(path, "rb").read()
size = int.from_bytes(data[16:18], "big")
begin = size * (root - 1)
page = data[begin : begin + size]
cells = int.from_bytes(page[3:5], "big")
places = [int.from_bytes(page[12 + 2 * k : 14 + 2 * k], "big") for k in range(cells)] + [8]
print(*(begin + place for place in places), sep="\n")
END
}
pairs_of() {
    children_of "$1" | python3 -c 'import itertools, sys
for one, other in itertools.combinations(sys.stdin.read().split(), 2):
    print(one, other)'
}

# The rows come from the last key to the first, or in any order, so the leaves are in no order of their numbers: only the keys say which is
# which.
@test 'mend finds which leaf of an index is where by doubles, also beside integers, texts that differ late or in case, and a second column' {
    local what column of keys value one other
    needs python3 sqlite3
    while IFS='|' read -r what column of keys value; do
        made "CREATE TABLE t(a $column, b DEFAULT 7); CREATE INDEX i ON t($of);
            WITH RECURSIVE k(n) AS (SELECT $keys UNION ALL SELECT n - 1 FROM k WHERE n > 1) INSERT INTO t(a) SELECT $value FROM k;"
        while read -r one other; do
            row "$what: $one and $other" is_put_back "$one" '\0\0\0\0' "$other" '\0\0\0\0'
        done < <(pairs_of i)
    done << 'END'
doubles|REAL|a|150|n * 1.3 - 90
doubles of which every second one is stored as an integer|REAL|a|150|n * 0.5 - 30
doubles and integers in any column||a|150|CASE n % 2 WHEN 0 THEN n - 70 ELSE n - 70.3 END
texts|TEXT|a|25|printf('%066d%04d', 0, n)
texts of which every second one has a capital letter|TEXT COLLATE NOCASE|a|25|printf('%s%065d', char(n % 2 * 32 + 64 + n), n)
integers after a column that is 7 in each row|INT|b, a|200|n * 7919 % 211
END
    [ "$rows" -gt 50 ]
}

# The keys are in no order of the rows, so the leaves are in none of their numbers.
@test 'mend finds which leaf of an index is where by numbers of each length and sign, and after columns of each type' {
    local of value one other
    needs python3 sqlite3
    while IFS=';' read -r of value; do
        made "CREATE TABLE t(a, b DEFAULT 7); CREATE INDEX i ON t($of);
            WITH RECURSIVE k(n) AS (SELECT 150 UNION ALL SELECT n - 1 FROM k WHERE n > 1) INSERT INTO t(a) SELECT $value FROM k;"
        while read -r one other; do
            row "$of, $value: $one and $other" are_put_back "$one" '\0\0\0\0' "$other" '\0\0\0\0'
        done < <(pairs_of i)
    done << 'END'
a;n * 7919 % 211 * 100 - 10000
a;n * 7919 % 211 * 8640 - 7000000
a;n * 7919 % 211 * 86400 - 1700000000
a;n * 7919 % 211 * 86400 - 1700000000000
a;n * 7919 % 211 * 86400 - 1700000000000000000
a;n * 7919 % 211 / 1000.0
a;n * 7919 % 211 * 1e11 + 0.5
a;n * 7919 % 211 * 1e25
b * 0, a;n * 7919 % 211
b * 1000000, a;n * 7919 % 211
b * 100000000, a;n * 7919 % 211
b * 100000000000, a;n * 7919 % 211
b * 100000000000000000, a;n * 7919 % 211
b * 0.5, a;n * 7919 % 211
substr(b, 2), a;n * 7919 % 211
b, b * 2, b * 3, b * 4, b * 5, b * 6, b * 8, b * 9, a;n * 7919 % 211
END
    [ "$rows" -gt 100 ]
}

# The keys are in no order of the rows, so the leaves are in none of their numbers. NULL comes before numbers, and texts before blobs. The
# integers above 2^53 differ by less than doubles of their size do.
@test 'mend finds which leaf of an index is where by integers of 6 and 8 bytes, a third column, NULL, and texts beside blobs' {
    local what of keys value one other
    needs python3 sqlite3
    while IFS='|' read -r what of keys value; do
        made "CREATE TABLE t(a, b DEFAULT 7, c DEFAULT 8); CREATE INDEX i ON t($of);
            WITH RECURSIVE k(n) AS (SELECT $keys UNION ALL SELECT n - 1 FROM k WHERE n > 1) INSERT INTO t(a) SELECT $value FROM k;"
        while read -r one other; do
            row "$what: $one and $other" are_put_back "$one" '\0\0\0\0' "$other" '\0\0\0\0'
        done < <(pairs_of i)
    done << 'END'
milliseconds, integers of 6 bytes|a|150|1700000000000 + n * 7919 % 211 * 86400000
integers of 8 bytes|a|150|9007199254740992 + n * 7919 % 211
integers after two columns that are 7 and 8 in each row|b, c, a|150|n * 7919 % 211
NULL in every second row, and integers|a|300|CASE WHEN n % 2 = 0 THEN n * 7919 % 1201 END
texts and blobs|a|30|CASE n % 2 WHEN 0 THEN printf('%066d', n * 89 % 211) ELSE CAST(printf('%066d', n * 89 % 211) AS BLOB) END
END
    [ "$rows" -gt 40 ]
}

# The rows of u go between those of t, three below each, and so do its leaves. Of its leaves one would fit each of the first nine places of t,
# and is nearer to the leaves beside that; but then one of t fits none of u.
@test 'of leaves of two tables that fit one place mend takes the one whose last rowid is the key there' {
    local here there number=0
    needs python3 sqlite3
    made "CREATE TABLE t(id INTEGER PRIMARY KEY, a); CREATE TABLE u(id INTEGER PRIMARY KEY, a);
        CREATE TRIGGER r AFTER INSERT ON t BEGIN INSERT INTO u VALUES (new.id - 3, new.a); END;
        $(up_to 40) INSERT INTO t SELECT 10 * n, zeroblob(100) FROM k;"
    while read -r here there; do
        number=$((number + 1))
        [ "$number" -gt 9 ] || row "child $number of both" are_put_back "$here" '\0\0\0\0' "$there" '\0\0\0\0'
    done < <(paste <(children_of t) <(children_of u))
    [ "$rows" = 9 ]
}

# Where a leaf is named twice, the keys of the other place are out of order.
@test 'mend finds two children of a table of which one names the leaf of the other, and three children of an index' {
    local one other
    needs python3 sqlite3
    made "CREATE TABLE t(a); $(up_to 20) INSERT INTO t SELECT zeroblob(100) FROM k"
    while read -r one other; do
        row "$one, and the leaf of $one at $other" are_put_back "$one" '\0\0\0\0' "$other" "$(page_at "$one")"
        row "$other, and the leaf of $other at $one" are_put_back "$other" '\0\0\0\0' "$one" "$(page_at "$other")"
    done < <(pairs_of t)
    made "CREATE TABLE t(id INTEGER PRIMARY KEY, a); CREATE INDEX i ON t(a); $(up_to 120) INSERT INTO t SELECT n, 'cust ' || n FROM k"
    row 'three children of an index' are_put_back 1520 '\0\0\0\0' 1504 '\0\0\0\0' 1032 '\0\0\0\0'
    [ "$rows" = 21 ]
}

# The pages below a child of the root come before it in the file, and are lost with it.
@test 'mend finds a child that has many children of its own' {
    local at
    needs python3 sqlite3
    made "CREATE TABLE t(a); $(up_to 1200) INSERT INTO t SELECT zeroblob(100) FROM k;"
    for at in $(children_of t); do
        row "the child at $at" are_put_back "$at" '\0\0\0\0'
    done
    [ "$rows" -gt 3 ]
}

# The first 800 bytes of each text are zeros, and the first five columns are numbers that are the same in each row.
@test 'mend finds which leaf of an index is where by texts that differ after 800 bytes, and by a sixth column' {
    local keys one other
    needs python3 sqlite3
    keys='WITH RECURSIVE k(n) AS (SELECT 150 UNION ALL SELECT n - 1 FROM k WHERE n > 1) INSERT INTO t SELECT'
    made "CREATE TABLE t(a); CREATE INDEX i ON t(a); $keys printf('%0800d%04d', 0, n * 7919 % 211) FROM k WHERE n <= 25" 4096
    while read -r one other; do
        row "texts: $one and $other" are_put_back "$one" '\0\0\0\0' "$other" '\0\0\0\0'
    done < <(pairs_of i)
    made "CREATE TABLE t(a); CREATE INDEX i ON t(a * 0, a * 0 + 2, a * 0 + 3, a * 0 + 4, a * 0 + 5, a); $keys n * 7919 % 211 FROM k"
    while read -r one other; do
        row "a sixth column: $one and $other" are_put_back "$one" '\0\0\0\0' "$other" '\0\0\0\0'
    done < <(pairs_of i)
    [ "$rows" = 25 ]
}

# pointer INDEX CELL: where the pointer of a cell of an index of one page is in x.db.
pointer() {
    sqlite3 "$work/x.db" "SELECT (rootpage - 1) * 512 + 8 + 2 * $2 FROM sqlite_schema WHERE name = '$1'"
}

# Cells of rows that were added one after another are adjacent: so two lost ones are in one run of bytes, or each in its own. No fault says which
# of them is which, but their keys and those around.
# The first indexes have texts that are alike, one with a second column: only that says which leaf is of which. Texts come after integers, so a leaf
# of texts could be the last one of an index of integers by the order of its keys. Of the indexes of one column the last leaf of i is put for that
# of j, so each could have the lost one: but its keys fall.
@test 'mend finds which leaf is of which index by the number of columns, the type of the first one, and whether keys rise or fall' {
    local here there
    needs python3 sqlite3
    made "CREATE TABLE t(a, b); CREATE INDEX i ON t(a); CREATE INDEX j ON t(a, b); WITH RECURSIVE k(n) AS (SELECT 150 UNION ALL SELECT n - 1 FROM k WHERE n > 1)
        INSERT INTO t SELECT printf('text %04d', n), 1 FROM k;"
    while read -r here there; do
        row "the children at $here and $there" are_put_back "$here" '\0\0\0\0' "$there" '\0\0\0\0'
    done < <(paste <(children_of i) <(children_of j) | awk 'NF == 2')
    [ "$rows" -gt 4 ]
    made "CREATE TABLE t(a INT, b TEXT); CREATE INDEX i ON t(a); CREATE INDEX j ON t(b);
        WITH RECURSIVE k(n) AS (SELECT 120 UNION ALL SELECT n - 1 FROM k WHERE n > 1) INSERT INTO t SELECT n, printf('t%03d', n) FROM k"
    row 'integers and texts' are_put_back 1032 '\0\0\0\0' 2022 '\0\0\0\0'
    made "CREATE TABLE t(a); CREATE INDEX i ON t(a); CREATE INDEX j ON t(a DESC); $(up_to 150) INSERT INTO t SELECT n * 7919 % 1009 FROM k"
    row 'keys that rise and keys that fall' are_put_back 1544 '\0\0\0\014'
    # The second column falls where the first one is the same.
    made "CREATE TABLE t(a, b); CREATE INDEX i ON t(a, b DESC); $(up_to 60)
        INSERT INTO t SELECT printf('r%02d', n / 9), printf('row number %05d', n * 53 % 60) FROM k; CREATE INDEX j ON t(a, b DESC)"
    row 'children of two indexes whose columns go different ways' are_put_back 1032 '\0\0\0\0' 6057 '\0\0\0\0'
    # Three children are lost. Where the keys beside one are of one kind those of its page are of that kind too: the number of columns, the first type.
    made "CREATE TABLE t(a INT, b INT); CREATE INDEX i ON t(a); CREATE INDEX j ON t(a, b); CREATE INDEX l ON t('x' || substr(1000 + a, 2));
        CREATE INDEX m ON t(a DESC); $(up_to 150) INSERT INTO t SELECT n * 37 % 263, n FROM k"
    row 'children of three of four indexes' are_put_back 1544 '\0\0\0\0' 2056 '\0\0\0\0' 2568 '\0\0\0\0'
}

@test 'mend finds which leaf of an index is where by texts and blobs, empty ones, zero and numbers below it' {
    local keys number one other
    needs python3 sqlite3
    keys='WITH RECURSIVE k(n) AS (SELECT 100 UNION ALL SELECT n - 1 FROM k WHERE n > 1) INSERT INTO t SELECT'
    number=0
    while read -r expression; do
        number=$((number + 1))
        made "CREATE TABLE t(a); CREATE INDEX i ON t(a, zeroblob(20)); $keys $expression FROM k"
        while read -r one other; do
            row "$expression: $one and $other" are_put_back "$one" '\0\0\0\0' "$other" '\0\0\0\0'
        done < <(pairs_of i)
    done << 'END'
CASE WHEN n % 2 THEN printf('%03d', n * 7919 % 101) ELSE CAST(printf('%03d', n * 7919 % 101) AS BLOB) END
CASE n * 7919 % 101 / 20 WHEN 0 THEN NULL WHEN 1 THEN 0 WHEN 2 THEN -2.5 WHEN 3 THEN x'' ELSE '' END
n * 7919 % 101 - 50
(n * 7919 % 101 - 50) / 8.0
END
    [ "$rows" -gt 40 ]
}

@test 'mend finds which cell of an index is where of two, of keys that rise, fall, are in no order of the rows, or differ in case' {
    local what key of pair one other
    needs sqlite3
    while IFS=';' read -r what key of; do
        made "CREATE TABLE t(a); CREATE INDEX i ON t($of);
            $(up_to 20) INSERT INTO t SELECT $key FROM k;"
        for pair in '0 1' '7 8' '18 19' '3 11'; do
            read -r one other <<< "$pair"
            row "$what: $pair" are_put_back "$(pointer i "$one")" '\0\0' "$(pointer i "$other")" '\0\0'
        done
    done << 'END'
rising;n;a
falling;n;a DESC
rows from the last to the first;100 - n;a
no order;n * 7919 % 211;a
texts;'text ' || (n * 7919 % 211);a
texts in capital and small letters;char(n % 2 * 32 + 64 + n) || (n * 7919 % 211);a COLLATE NOCASE
doubles;n * 7919 % 211 * 1.3 - 90;a
END
    made "CREATE TABLE t(a, b); CREATE INDEX i ON t(a, b); $(up_to 9) INSERT INTO t SELECT printf('%0200d', 1) || (n * 37 % 97), n FROM k"
    row 'texts that differ in overflow pages' are_put_back "$(pointer i 3)" '\0\070' "$(pointer i 6)" '\0176\0305'
    [ "$rows" = 29 ]
}

# The columns of a key go different ways, so in the order of the cells each rises as often as it falls.
@test 'mend finds a cell pointer of an index of columns that go different ways, where it leads to another cell' {
    local sql cell other
    needs sqlite3
    for sql in 'CREATE TABLE w(a INT, b INT, PRIMARY KEY(a DESC, b)) WITHOUT ROWID' 'CREATE TABLE t(a INT, b INT); CREATE INDEX w ON t(a, b DESC)'; do
        made "$sql; $(up_to 24) INSERT INTO $([[ $sql == *INDEX* ]] && echo t || echo w) SELECT n % 3, n + 10 FROM k"
        for cell in {0..23}; do
            for other in $(((cell + 1) % 24)) $(((cell + 9) % 24)); do
                row "$sql: $other for $cell" are_put_back "$(pointer w "$cell")" "$(later "$(pointer w "$other")" 0)"
            done
        done
    done
    [ "$rows" = 96 ]
}

# A byte after its start the cell is an index cell too, of one column, and three bytes less. So with three fragmented bytes the page has no fault.
@test 'mend finds a cell pointer of an index that leads into the cell, to what is a record too' {
    local cell
    needs sqlite3
    made "CREATE TABLE t(a INT); CREATE INDEX i ON t(a); $(up_to 20) INSERT INTO t SELECT n + 200 FROM k"
    for cell in {0..19}; do
        row "cell $cell" are_put_back "$(pointer i "$cell")" "$(later "$(pointer i "$cell")" 1)"
    done
}

# To SQLite a capital letter comes before each small one. Without the lost key the five others are in order both with their letters as they are and
# without regard to case. One key alone is in no order.
@test 'mend finds the pointer of a key of an index that is before the others, by its letters or as the only other one' {
    needs sqlite3
    made "CREATE TABLE t(a); CREATE INDEX i ON t(a); INSERT INTO t VALUES ('Zed'), ('apple'), ('bat'), ('cat'), ('dog'), ('eel')"
    row 'one capital letter' are_put_back "$(pointer i 0)" '\0\0'
    made 'CREATE TABLE t(a); CREATE INDEX i ON t(a DESC); INSERT INTO t VALUES (5), (9)'
    row 'the greater one of two that fall' are_put_back "$(pointer i 0)" '\0\0'
    [ "$rows" = 2 ]
}

# One lower count of cells would leave one fault, and each pointer leaves one fewer. Pages 2 and 3 are the leaves of t and i.
@test 'mend finds three cell pointers and more of a page, and leaves out no row' {
    local page count first number
    needs sqlite3
    made "CREATE TABLE t(a); CREATE INDEX i ON t(a); $(up_to 20)
        INSERT INTO t SELECT n FROM k;"
    for page in 2 3; do
        for count in 3 5 8; do
            for first in 0 6 12; do
                numbers=()
                for ((number = first; number < first + count; number++)); do
                    numbers+=($((512 * (page - 1) + 8 + 2 * number)) '\0\0')
                done
                row "$count pointers of page $page from $first on" are_put_back "${numbers[@]}"
            done
        done
    done
    [ "$rows" = 18 ]
}

@test 'mend finds twelve cell pointers of cells that follow one another' {
    local number
    needs sqlite3
    made "CREATE TABLE t(a); $(up_to 20) INSERT INTO t SELECT n FROM k;"
    flags=(--limit 16)
    numbers=()
    for ((number = 2; number < 14; number++)); do
        numbers+=($((512 + 8 + 2 * number)) '\0\0')
    done
    row 'twelve pointers' are_put_back "${numbers[@]}"
}

# A pointer before the end of the pointers is that of no cell. Were the content area to begin there, the page would have one fault: P03.
@test 'mend does not let the content area begin among the cell pointers' {
    needs sqlite3
    made "CREATE TABLE t(a); $(up_to 20) INSERT INTO t SELECT n FROM k;"
    row 'pointers to bytes 18, 20 and 30' are_put_back $((512 + 12)) '\0\022' $((512 + 20)) '\0\024' $((512 + 36)) '\0\036'
}

@test 'mend finds three cell pointers that lead into the head of their page' {
    local place numbers
    needs sqlite3
    made "CREATE TABLE t(a); CREATE INDEX i ON t(a); $(up_to 20) INSERT INTO t SELECT 'row ' || n FROM k;"
    for place in 520 530 554 1032 1042 1066; do
        for numbers in '2 5 1' '0 1 2' '4 30 3' '20 8 2'; do
            # shellcheck disable=SC2086
            set -- $numbers
            row "from $place on, put $numbers" are_put_back "$place" "$(short "$1")" $((place + 2)) "$(short "$2")" $((place + 4)) "$(short "$3")"
        done
    done
    [ "$rows" = 24 ]
}

# The five pointers are those of the last five cells. Were the leaf one of an index, all its faults would be one, P02.
# A cell of zeros has 4 bytes. Were the content area to begin there, the page would have one fault: P09.
@test 'mend does not let the content area begin in the free bytes before it' {
    needs sqlite3
    made "CREATE TABLE t(a); CREATE INDEX i ON t(a); $(up_to 20) INSERT INTO t SELECT 'row ' || n FROM k;"
    row 'four free bytes' [ "$(number_at $((1024 + 5)))" -gt $((8 + 2 * 20 + 100)) ]
    row 'three pointers of page 3' are_put_back $((1024 + 12)) '\0\0100' $((1024 + 20)) '\0\0110' $((1024 + 36)) '\0\0120'
    row 'three pointers of page 2' are_put_back $((512 + 12)) '\0\0100' $((512 + 20)) '\0\0110' $((512 + 36)) '\0\0120'
}

@test 'mend does not make a leaf of a table one of an index' {
    local leaf=2048
    needs sqlite3
    made "CREATE TABLE t(a); $(up_to 200) INSERT INTO t SELECT n FROM k;"
    row 'page 5 is a leaf' [ "$(type_of 5)" = 13 ]
    dd if="$work/x.db" of="$work/x.db" bs=1 skip=$((leaf + 8 + 2 * $(number_at $((leaf + 3))) - 10)) seek=$((leaf + 8)) count=10 conv=notrunc status=none
    dbck mend "$work/x.db"
    row 'no other type' [ "$(grep -c "^at byte $leaf " "$work/out")" = 0 ]
}

# The first link of page 2 is at byte 513. Rows 3, 9 and 15 of 20 are gone, so that there are three freeblocks, of which each is where a cell was.
@test 'mend finds the links to freeblocks, and their sizes' {
    local block number link=513 value
    needs sqlite3
    made "CREATE TABLE t(a); $(up_to 20)
        INSERT INTO t SELECT printf('row %d', n) FROM k; DELETE FROM t WHERE a IN ('row 3', 'row 9', 'row 15')"
    for number in 0 1 2; do
        block=$((512 + $(number_at $link)))
        for value in '\0\0' '\0377\0377' '\0\07' "\\01\\0220"; do
            row "the link to freeblock $number, put $value" are_put_back $link "$value"
        done
        for value in '\0377\0377' '\0\03' '\0\0' '\0\0177' '\0\04'; do
            row "the size of freeblock $number, put $value" are_put_back $((block + 2)) "$value"
        done
        link=$block
    done
    row 'the end of the list' are_put_back $link '\01\0220'
    made "CREATE TABLE t(a); CREATE INDEX i ON t(a); $(up_to 45) INSERT INTO t SELECT n * 37 % 101 FROM k; DELETE FROM t WHERE rowid IN (3, 9, 15)"
    for value in '\0\0377' '\01\0252'; do
        row "the first link of an index, put $value" are_put_back 1025 "$value"
    done
    [ "$rows" = 30 ]
}

# fragmented IDS: makes x.db, whose rows 3 and 6 are one and two bytes shorter than those that they took the place of: a fragment comes after
# each. Then come rows 2 and 5. The rows with these ids are gone.
fragmented() {
    made "CREATE TABLE t(id INTEGER PRIMARY KEY, a); $(up_to 12)
        INSERT INTO t SELECT n, printf('row number %02d', n) FROM k; DELETE FROM t WHERE id = 6; INSERT INTO t VALUES (6, 'row number ');
        DELETE FROM t WHERE id = 3; INSERT INTO t VALUES (3, 'row number 3'); DELETE FROM t WHERE id IN ($1)"
    [ "$(number_at 519 1)" = 3 ]
}

@test 'mend finds the pointer of a cell that leads into a freeblock' {
    local at block cell link=513
    needs sqlite3
    made "CREATE TABLE t(a); $(up_to 20)
        INSERT INTO t SELECT printf('row number %02d', n) FROM k; DELETE FROM t WHERE a IN ('row number 03', 'row number 09', 'row number 15')"
    while [ "$(number_at $link)" != 0 ]; do
        block=$((512 + $(number_at $link)))
        for cell in 0 5 16; do
            for at in 0 1 4 8; do
                row "cell $cell at $at of the freeblock at $block" are_put_back $((520 + 2 * cell)) "$(short $((block - 512 + at)))"
            done
        done
        link=$block
    done
    [ "$rows" = 36 ]
}

@test 'mend finds cells after fragments, links to freeblocks after them, and the sizes of freeblocks before them' {
    local block cell ids link value
    needs sqlite3
    row 'fragments between cells' fragmented 0
    for cell in 1 2 4 5; do
        row "the pointer of cell $cell" are_put_back $((520 + 2 * cell)) '\0\0'
    done
    for ids in 2,5 3,6; do
        row "fragments beside freeblocks in the place of rows $ids" fragmented "$ids"
        link=513
        while [ "$(number_at $link)" != 0 ]; do
            block=$((512 + $(number_at $link)))
            for value in '\0\0' '\0377\0377' '\0\07'; do
                row "the link at $link of rows $ids, put $value" are_put_back $link "$value"
            done
            for value in '\0377\0377' '\0\03' '\0\0' '\0\04'; do
                row "the size of the freeblock at $block of rows $ids, put $value" are_put_back $((block + 2)) "$value"
            done
            link=$block
        done
    done
    [ "$rows" = 35 ]
}

# Behind the pointers SQLite leaves some of cells that are gone. The cells that are left out have more bytes than fragments may have.
# Each cell has 4 bytes, so that a run of bytes that is one byte longer than a fragment is a cell.
@test 'mend finds cells of four bytes, and leaves none out' {
    local cell count first place
    needs sqlite3
    made "CREATE TABLE t(a); $(up_to 20) INSERT INTO t SELECT NULL FROM k;"
    row 'each has four bytes' [ "$(number_at 517)" = $((512 - 4 * 20)) ]
    for cell in 0 9 19; do
        row "the pointer of cell $cell" are_put_back $((520 + 2 * cell)) '\0\0'
    done
    for first in 0 6 17; do
        place=$((520 + 2 * first))
        row "three pointers from $first on" are_put_back $place '\0\0' $((place + 2)) '\0\0' $((place + 4)) '\0\0'
    done
    for count in 1 21 23 25 377; do
        row "a count of octal $count" are_put_back 515 "\\0\\0$count"
    done
    [ "$rows" = 12 ]
}

@test 'mend finds the count of cells of a page with freeblocks, and of one with six fragmented bytes' {
    local count
    needs sqlite3
    made "CREATE TABLE t(a); $(up_to 20)
        INSERT INTO t SELECT printf('row %d', n) FROM k; DELETE FROM t WHERE a IN ('row 3', 'row 9', 'row 15')"
    for count in 1 12 17 20 22 377; do
        row "a count of octal $count" are_put_back 515 "\\0\\0$count"
    done
    made "CREATE TABLE t(id INTEGER PRIMARY KEY, a); $(up_to 12) INSERT INTO t SELECT n, printf('row number %02d', n) FROM k;
        $(for id in 3 6 9; do echo "DELETE FROM t WHERE id = $id; INSERT INTO t VALUES ($id, 'row number ');"; done)"
    row 'six fragmented bytes' [ "$(number_at 519 1)" = 6 ]
    for count in 1 11 12 13; do
        row "a count of octal $count of 12" are_put_back 515 "\\0\\0$count"
    done
    [ "$rows" = 11 ]
}

# A child without cells has P10.
@test 'mend finds the count of cells of a child where it is 0' {
    local page
    needs sqlite3
    made "CREATE TABLE t(a); CREATE INDEX i ON t(a); $(up_to 90)
        INSERT INTO t SELECT printf('row %d', n) FROM k;"
    for page in {4..9}; do
        row "page $page is a leaf" grep -qx '10\|13' <<< "$(type_of "$page")"
        row "page $page" are_put_back $((512 * page - 512 + 3)) '\0\0'
    done
    [ "$rows" = 12 ]
}

# length_at PAGE CELL: where the length of the payload of a cell is in x.db, in a page of any tree but an interior page of a table.
length_at() {
    local begin=$((512 * $1 - 512))
    case $(type_of "$1") in
        2) echo $((begin + $(number_at $((begin + 12 + 2 * $2))) + 4)) ;;
        *) echo $((begin + $(number_at $((begin + 8 + 2 * $2))))) ;;
    esac
}

# varint NUMBER: its bytes in a record, as put_at takes them.
varint() {
    local rest=$1 bytes
    bytes=$(printf '\\0%03o' $((rest % 128)))
    while [ $((rest /= 128)) -gt 0 ]; do
        bytes=$(printf '\\0%03o' $((128 + rest % 128)))$bytes
    done
    echo "$bytes"
}

# is_length_put_back CODE AT BYTES: are_put_back, and a fault of this code is what tells.
is_length_put_back() {
    are_put_back "${@:2}" || return
    dbck check --limit 100 "$work/wrong.db"
    grep -q "^$1 " "$work/out" || differs "$1"
}

# A length that is too small leaves bytes over (P09), and one that is too great reaches into the cell after it (P08) or past the page (P06). Where the
# row has a chain of overflow pages, that has more of them (O01) or fewer (R01) than the length says. From 478 bytes on a row of a table has one
# here, and from 103 bytes on one of an index.
@test 'mend finds the length of a payload, which its record says too' {
    local what sql page cell lengths pair
    needs sqlite3
    while IFS='|' read -r what sql page cell lengths; do
        made "$sql"
        for pair in $lengths; do
            row "$what, put ${pair#*:}" is_length_put_back "${pair%:*}" "$(length_at "$page" "$cell")" "$(varint "${pair#*:}")"
        done
    done << END
a row of a table|CREATE TABLE t(a); $(up_to 20) INSERT INTO t SELECT printf('row number %d', n) FROM k|2|5|P09:0 P09:13 P08:15 P08:40 P06:100
the first row of a page|CREATE TABLE t(a); $(up_to 20) INSERT INTO t SELECT printf('row number %d', n) FROM k|2|0|P09:3 P06:15 P06:127
a key of an index|CREATE TABLE t(a); CREATE INDEX i ON t(a); $(up_to 20) INSERT INTO t SELECT printf('row %d', n) FROM k|3|5|P09:9 P08:11 P08:100
the first key of a page|CREATE TABLE t(a); CREATE INDEX i ON t(a); $(up_to 20) INSERT INTO t SELECT printf('row %d', n) FROM k|3|0|P09:5 P06:10 P06:127
a key of an interior page|CREATE TABLE t(a); CREATE INDEX i ON t(a); $(up_to 150) INSERT INTO t SELECT printf('%020d', n) FROM k|3|2|P09:0 P09:20 P08:30
the first key of it|CREATE TABLE t(a); CREATE INDEX i ON t(a); $(up_to 150) INSERT INTO t SELECT printf('%020d', n) FROM k|3|0|P09:5 P06:30
a row without rowid|CREATE TABLE t(a PRIMARY KEY, b) WITHOUT ROWID; $(up_to 15) INSERT INTO t SELECT printf('key %d', n), n FROM k|2|5|P09:3 P08:11
a row of 153 bytes|CREATE TABLE t(a); $(up_to 3) INSERT INTO t SELECT printf('%0150d', n) FROM k|2|1|P09:128 P08:154 P08:300
the first of these|CREATE TABLE t(a); $(up_to 3) INSERT INTO t SELECT printf('%0150d', n) FROM k|2|0|P09:140 P06:300 R01:500
a row of 473 bytes|CREATE TABLE t(a); $(up_to 2) INSERT INTO t SELECT printf('%0470d', n) FROM k|3|0|P09:460 R01:478 R01:1000
a row of 493 bytes|CREATE TABLE t(a); $(up_to 2) INSERT INTO t SELECT printf('%0490d', n) FROM k|2|0|P06:300 P06:477 R01:1001
a row of 2003 bytes|CREATE TABLE t(a); $(up_to 3) INSERT INTO t SELECT printf('%02000d', n) FROM k|2|1|O01:1495 O01:987 R01:2511 P06:1903 P08:2103
a row of 20004 bytes|CREATE TABLE t(a); $(up_to 2) INSERT INTO t SELECT printf('%020000d', n) FROM k|2|1|O01:19496 R01:20512 N01:16384 N01:40000
a key of 95 bytes|CREATE TABLE t(a); CREATE INDEX i ON t(a); $(up_to 3) INSERT INTO t SELECT printf('%090d', n) FROM k|3|1|P09:80 R01:103
a key of 1005 bytes|CREATE TABLE t(a); CREATE INDEX i ON t(a); $(up_to 4) INSERT INTO t SELECT printf('%01000d', n) FROM k|3|1|O01:497 R01:1513
a key above leaves, with a chain|CREATE TABLE t(a PRIMARY KEY, b) WITHOUT ROWID; $(up_to 30) INSERT INTO t SELECT printf('%0600d', n), n FROM k|2|0|N01:200
END
    # One bit of a byte, so that a length of one byte has two, and one of more bytes has fewer: then the rowid is the rest of it.
    made "CREATE TABLE t(a); $(up_to 20) INSERT INTO t SELECT printf('row number %d', n) FROM k"
    for cell in 0 5 19; do
        row "cell $cell, of two bytes" are_put_back "$(length_at 2 "$cell")" '\0216'
    done
    made "CREATE TABLE t(a); $(up_to 3) INSERT INTO t SELECT printf('%0150d', n) FROM k"
    for cell in 0 1 2; do
        row "cell $cell, of one byte" are_put_back "$(length_at 2 "$cell")" '\01'
    done
    made "CREATE TABLE t(a PRIMARY KEY, b) WITHOUT ROWID; $(up_to 6) INSERT INTO t SELECT printf('%090d', n), zeroblob(40) FROM k"
    for cell in 0 1 2; do
        row "cell $cell without rowid, of one byte" are_put_back "$(length_at 2 "$cell")" '\01'
    done
    made "CREATE TABLE t(a); $(up_to 2) INSERT INTO t SELECT printf('%020000d', n) FROM k"
    for cell in 0 1; do
        row "cell $cell of 20003 bytes, of one byte" are_put_back "$(length_at 2 "$cell")" '\01'
        row "cell $cell of 20003 bytes, of two bytes" are_put_back $(($(length_at 2 "$cell") + 1)) '\034'
    done
    [ "$rows" = 60 ]
}

# A row of each type of value, after rowids of one byte to nine.
@test 'mend finds lengths of rows with values of each type, and after rowids of each length' {
    local value rowid
    needs sqlite3
    for value in NULL 0 1 100 1000 100000 100000000 100000000000 1000000000000000000 -100000000 0.5 "''" "x''" "'text'" "x'0102'"; do
        made "CREATE TABLE t(a, b, c); $(up_to 6) INSERT INTO t SELECT 'row ' || n, $value, n FROM k"
        row "a row with $value" are_put_back "$(length_at 2 3)" '\03'
        made "CREATE TABLE t(a, b, c); CREATE INDEX i ON t(a, b); $(up_to 6) INSERT INTO t SELECT 'row ' || n, $value, n FROM k"
        row "a key with $value" are_put_back "$(length_at 3 3)" '\03'
    done
    for rowid in 9 150 20000 3000000 300000000 1700000000000 1000000000000000 100000000000000000 9000000000000000000 -9; do
        made "CREATE TABLE t(id INTEGER PRIMARY KEY, a); $(up_to 6) INSERT INTO t SELECT n + $rowid, 'row ' || n FROM k"
        row "rowids from $rowid on" are_put_back "$(length_at 2 3)" '\03'
    done
    [ "$rows" = 40 ]
}

# Eight pages of a table are kept, and then still those of an index.
@test 'beside 9 leaves of a table that are lost for good mend finds the child of an index' {
    needs sqlite3
    made "CREATE TABLE t(a); CREATE TABLE u(a); CREATE INDEX i ON u(a); $(up_to 200) INSERT INTO t SELECT printf('row number %d', n) FROM k;
        $(up_to 100) INSERT INTO u SELECT printf('row number %03d', n) FROM k"
    row 'the child' [ "$(number_at 2002 4)" = 14 ]
    printf '%512s' '' | tr ' ' x | dd of="$work/x.db" bs=512 seek=1 conv=notrunc status=none
    put_at "$work/x.db" 2002 '\0\0\0\0'
    dbck mend "$work/x.db"
    row 'it is found' ended 1 $'*at byte 2002 put 0000000e for 00000000\n    page 4 at byte 1536\n    9 faults are left\n9 faults are left\n' ''
}

# The rows of the schema are looked at as the changes before leave them.
@test 'mend finds three roots of tables and indexes, one after another' {
    local number
    needs sqlite3
    made "$(for number in 0 1 2 3 4; do echo "CREATE TABLE a$number(x, y); CREATE INDEX i$number ON a$number(x);"; done)
        CREATE TABLE w(k PRIMARY KEY, v) WITHOUT ROWID; INSERT INTO a1 VALUES (1, 2)" 4096
    row 'three roots' are_put_back "$(root_at 'CREATE TABLE a1(')" '\06' "$(root_at 'CREATE TABLE a4(')" '\010' "$(root_at 'CREATE INDEX i4 ')" '\02'
}

# A rowid of four bytes; a length that was made longer than three; more columns than one byte of a header is for; page 1; a key with fragments
# beside it; and of many cells the last.
@test 'mend finds lengths after long rowids, of many columns, of page 1 and of many cells, and beside them the numbers that are wrong' {
    local at bytes columns
    needs sqlite3
    made "CREATE TABLE t(id INTEGER PRIMARY KEY, a); $(up_to 12) INSERT INTO t SELECT n + 3000000, printf('row number %d', n) FROM k"
    for bytes in 13 18; do
        row "a length before a rowid of four bytes, put $bytes" are_put_back "$(length_at 2 5)" "$(varint "$bytes")"
    done
    made "CREATE TABLE t(a); $(up_to 2) INSERT INTO t SELECT printf('%020000d', n) FROM k"
    row 'a length of three bytes, put one of more' are_put_back $(($(length_at 2 0) + 2)) '\0244'
    columns=$(printf 'c%d,' {0..59})
    made "CREATE TABLE t(${columns%,}); $(up_to 3) INSERT INTO t SELECT $(printf 'n,%.0s' {1..59})n FROM k"
    for bytes in 118 124; do
        row "the length of a row of 60 columns, put $bytes" are_put_back "$(length_at 2 1)" "$(varint "$bytes")"
    done
    made 'CREATE TABLE t(a); CREATE TABLE u(b); CREATE TABLE v(c)'
    for at in 446 413; do
        for bytes in '\034' '\042'; do
            row "the length of a row of the schema at $at, put $bytes" are_put_back "$at" "$bytes"
        done
    done
    made "CREATE TABLE t(a); $(up_to 150) INSERT INTO t SELECT printf('row number %d', n) FROM k" 4096
    row 'the fragments of a page of 150 cells' are_put_back 4103 '\05'
    made "CREATE TABLE t(a); $(up_to 20) INSERT INTO t SELECT printf('row number %d', n) FROM k; DELETE FROM t WHERE rowid = 7"
    row 'the type of a page with a freeblock' are_put_back 512 '\012'
    made "$(printf 'CREATE TABLE table_with_name_%d(aaaaaaaaaaaaaaaaaaaaaaaaaaaa, b);' {1..30})"
    for at in 112 114 116; do
        row "a pointer of page 1 above others, at $at" are_put_back "$at" '\0\0'
    done
    [ "$rows" = 14 ]
}

# Of the pages that say how many bytes are reserved, none may be read with another number.
@test 'mend finds how many bytes are reserved, and entries of the pointer map of pages with reserved bytes' {
    local bytes
    needs sqlite3
    reserving 12 "CREATE TABLE t(a); CREATE INDEX i ON t(a); $(up_to 60) INSERT INTO t SELECT printf('row number %d', n) FROM k"
    for bytes in '\0' '\04' '\010' '\013'; do
        row "reserved bytes, put $bytes" are_put_back 20 "$bytes"
    done
    rm -f "$work/x.db"
    sqlite3 "$work/x.db" '.filectrl reserve_bytes 8' "PRAGMA page_size = 512; PRAGMA auto_vacuum = 1; CREATE TABLE t(a); CREATE INDEX i ON t(a);
        $(up_to 20) INSERT INTO t SELECT printf('row number %d', n) FROM k" > "$work/said"
    row 'the type of the first entry' are_put_back 512 '\05'
    row 'the type of the second entry' are_put_back 517 '\02'
    [ "$rows" = 6 ]
}

# One byte later a cell of an index begins with the length of its header, so it is a short one, and no fault but P09 says so.
@test 'mend finds the pointer of a cell of an index that leads to a byte inside it' {
    local cell place pointer
    needs sqlite3
    made "CREATE TABLE t(a); CREATE INDEX i ON t(a); $(up_to 20)
        INSERT INTO t SELECT printf('row %d', n) FROM k;"
    for cell in 0 1 7 18 19; do
        place=$((1024 + 8 + 2 * cell))
        pointer=$(number_at "$place")
        row "cell $cell" are_put_back "$place" "$(short $((pointer + 1)))"
    done
    # Each change is looked for in the page as those before it leave it.
    pointer=$(number_at "$(pointer i 2)")
    row 'cell 2, and two past the end' are_put_back \
        "$(pointer i 18)" '\0201' "$(pointer i 2)" "$(short $((pointer ^ 8)))" "$(pointer i 7)" '\0167\0167'
    [ "$rows" = 6 ]
}

# The cells do not fill the content area, as the page states it: so their count is that of the pointers.
@test 'mend finds the count of cells and that of fragmented bytes of one page' {
    local count page
    needs sqlite3
    made "CREATE TABLE t(a); CREATE INDEX i ON t(a); $(up_to 20)
        INSERT INTO t SELECT 'row ' || n FROM k;"
    for page in 2 3; do
        for count in '\0\040' '\0\060' '\0\0100'; do
            row "page $page, count $count" are_put_back $((512 * page - 509)) "$count" $((512 * page - 505)) '\05'
        done
    done
    [ "$rows" = 6 ]
}

@test 'mend finds a page size that is another one of those that there are' {
    local right stored wrong
    needs sqlite3
    while read -r right stored; do
        made 'CREATE TABLE t(a); INSERT INTO t VALUES (zeroblob(200000))' "$right"
        for wrong in '\02\0' '\04\0' '\020\0' '\0\01'; do
            [ "$wrong" = "$stored" ] || row "page size $right, put $wrong" are_put_back 16 "$wrong"
        done
    done << 'END'
512 \02\0
1024 \04\0
2048 \010\0
4096 \020\0
8192 \040\0
16384 \0100\0
32768 \0200\0
65536 \0\01
END
    [ "$rows" = 28 ]
}

# The first cell is at the end of page 2, and the others take most of the page.
@test 'mend finds the pointer of a cell of a page of each size' {
    local size cells
    needs sqlite3
    for size in 512 1024 2048 4096 8192 16384 32768 65536; do
        cells=$((size / 32))
        made "CREATE TABLE t(a); $(up_to $cells)
            INSERT INTO t SELECT printf('row %016d', n) FROM k;" "$size"
        row "a pointer in a page of $size bytes" is_put_back $((size + 8)) '\0\0'
    done
    [ "$rows" = 8 ]
}

# Cell 0 has the pointer of cell 1, and cell 1 that of cell 4: with the lost cell in the place of cell 1 each byte would be held once.
@test 'mend puts no cell of an index where its key is out of order' {
    local first
    needs sqlite3
    made "CREATE TABLE t(a); CREATE INDEX i ON t(a); $(up_to 20) INSERT INTO t SELECT n FROM k;"
    first=$(pointer i 0)
    dd if="$work/x.db" of="$work/x.db" bs=1 skip=$((first + 2)) seek="$first" count=2 conv=notrunc status=none
    dd if="$work/x.db" of="$work/x.db" bs=1 skip=$((first + 8)) seek=$((first + 2)) count=2 conv=notrunc status=none
    exactly 1 $'1 fault\n1 fault is left\n' '' mend "$work/x.db"
}

# Page 2 is the root of t, and its leaves are lost with it. Each would be one lost page fewer, and most of the rows would be lost for good.
# A line feed, and 13, 2 and 5, would be the type of a page.
@test 'for a root page that was overwritten mend names no leaf' {
    local bytes root
    needs sqlite3
    made "CREATE TABLE t(a); CREATE TABLE u(a); CREATE INDEX i ON u(a); $(up_to 60)
        INSERT INTO t SELECT zeroblob(20) || n FROM k; INSERT INTO u SELECT a FROM t"
    for root in $(sqlite3 "$work/x.db" 'SELECT rootpage FROM sqlite_schema'); do
        for bytes in '\0' 'x' '\n' '\r' '\02' '\05'; do
            cp "$work/x.db" "$work/wrong.db"
            head -c 512 /dev/zero | tr '\0' "$bytes" | dd of="$work/wrong.db" bs=512 seek=$((root - 1)) conv=notrunc status=none
            dbck mend "$work/wrong.db"
            row "root $root, $bytes" [ "$(wc -l < "$work/out")" = 2 ]
        done
    done
    [ "$rows" = 18 ]
}

# chains_of: of each two rows in x.db with a first overflow page 42 bytes after the begin of their cells, where its number is.
chains_of() {
    python3 - "$work/x.db" << 'END'
import itertools, sys
data = open(sys.argv[1], "rb").read()
places = {}
for begin in range(512, len(data), 512):
    page = data[begin : begin + 512]
    for k in range(int.from_bytes(page[3:5], "big") if page[0] == 13 else 0):
        at = int.from_bytes(page[8 + 2 * k : 10 + 2 * k], "big")
        places[page[at + 2]] = begin + at + 42
for one, other in itertools.combinations(sorted(places), 2):
    print(places[one], places[other])
END
}

# The leaves have higher numbers than most of the chains.
@test 'mend finds which overflow chain is of which row by the order of the rows' {
    local one other
    needs python3 sqlite3
    made "CREATE TABLE t(a); $(up_to 14) INSERT INTO t SELECT zeroblob(1500) FROM k;"
    while read -r one other; do
        row "$one and $other" is_put_back "$one" '\0\0\0\0' "$other" '\0\0\0\0'
    done < <(chains_of)
    [ "$rows" = 91 ]
}

# Two rows name one chain, and another one is lost. Each row has its own again if the order of the chains is that of the rows.
@test 'mend finds which of two rows names the overflow chain of the other' {
    local one other
    needs python3 sqlite3
    made "CREATE TABLE t(a); $(up_to 14) INSERT INTO t SELECT zeroblob(1500) FROM k;"
    while read -r one other; do
        row "$one, the chain of $other" is_put_back "$one" "$(page_at "$other")"
        row "$other, the chain of $one" is_put_back "$other" "$(page_at "$one")"
    done < <(chains_of)
    [ "$rows" = 182 ]
}

# others_of STEP: of each STEP-th pair of a reference of x.db and another page, or 0, where the reference is, and that page as put_at takes it.
others_of() {
    "$DBCK" stat --all "$work/x.db" > "$work/stat"
    PYTHONPATH=tests python3 - "$work/x.db" "$work/stat" "$1" << 'END'
import pathlib, sys
import injuries, mend
db = injuries.Patient(pathlib.Path(sys.argv[1]).read_bytes(), None, pathlib.Path(sys.argv[2]).read_text(), "x")
places = [at for at, size in mend.references(db) if size == 4]
pairs = [(at, page) for at in places for page in range(db.pages + 1) if page != db.number(at, 4)]
for at, page in pairs[:: int(sys.argv[3])]:
    print(at, "".join(f"\\0{byte:03o}" for byte in page.to_bytes(4, "big")))
END
}

# others_are_put_back STEP COUNT: each of these, so many, is put back.
others_are_put_back() {
    local at page
    rows=0
    while read -r at page; do
        row "at $at put $page" is_put_back "$at" "$page"
    done < <(others_of "$1")
    row "$2 references" [ "$rows" = "$2" ]
}

@test 'mend finds a page that another one was put for: children, also of the schema and of an index, and overflow pages' {
    needs python3 sqlite3
    made "$(printf 'CREATE TABLE t%d(a);' {10..40})"
    others_are_put_back 5 21
    made "CREATE TABLE t(a, b); CREATE INDEX i ON t(a); $(up_to 900) INSERT INTO t SELECT printf('%060d', n * 7919 % 900), n FROM k"
    others_are_put_back 797 117
    made "PRAGMA auto_vacuum = full; CREATE TABLE t(a, b); CREATE INDEX i ON t(b); $(up_to 60) INSERT INTO t SELECT n, 'row ' || (n * 37 % 60) FROM k;
        CREATE TABLE u(a); INSERT INTO u SELECT zeroblob(300 + a * 20) FROM t WHERE a < 12"
    others_are_put_back 5 80
    made "CREATE TABLE t(a PRIMARY KEY, b) WITHOUT ROWID; $(up_to 80) INSERT INTO t SELECT printf('key%05d', n * 7919 % 1000), zeroblob(n % 40) FROM k"
    others_are_put_back 1 48
    made "CREATE TABLE t(a); $(up_to 14) INSERT INTO t SELECT zeroblob(1500) FROM k"
    others_are_put_back 17 157
}

# To SQLite capital letters come before small ones, unless the column says NOCASE.
@test 'mend finds which place had a child of an index where only letters as they are say so' {
    needs sqlite3
    made "CREATE TABLE t(a); CREATE INDEX i ON t(a); $(up_to 150)
        INSERT INTO t SELECT CASE n % 2 WHEN 0 THEN 'B' ELSE 'a' END || printf('%03d', n * 7919 % 211) || 'xxxxxxxxxxxx' FROM k"
    row 'the child at 1411' are_put_back 1411 '\0\0\0\020'
}

# The chain goes from page 4 on. The pages that are left out are lost: nothing else says where the list of them ends.
@test 'mend finds the next overflow page where many are left out' {
    needs sqlite3
    made "CREATE TABLE t(a); INSERT INTO t VALUES (printf('%040000d', 7)), (zeroblob(700))"
    row '21 pages' are_put_back 2048 '\0\0\0\033'
    made "CREATE TABLE t(a); INSERT INTO t VALUES (printf('%03000000d', 7)), ('x')"
    row '4194 pages' are_put_back 2048 '\0\0\020\0150'
}

# The first and the last child of a page have a key on one side alone. The other one is in a page above it.
@test 'mend finds children of an index by the keys of all pages above, and where they lead past two levels' {
    local at bytes keys
    needs sqlite3
    keys='INSERT INTO t SELECT printf('\''%060d'\'', n * 7919 % '
    made "CREATE TABLE t(a, b); CREATE INDEX i ON t(a); $(up_to 900) ${keys}907), n FROM k"
    for at in 46088 75933 77320; do
        for bytes in '\0105' '\0121' '\0125'; do
            row "the child at $at, put $bytes" are_put_back $((at + 3)) "$bytes"
        done
    done
    made "CREATE TABLE t(a, b); CREATE INDEX i ON t(a); $(up_to 500) ${keys}900), n FROM k"
    row 'a child that leads past two levels' are_put_back 1469 '\042'
    [ "$rows" = 10 ]
}

# Chains that are in no order, and a free page whose number is between two of them.
@test 'mend finds the overflow chain of a row whose number is out of order, and the one of a trunk or a row that is in order' {
    local n
    needs sqlite3
    made "CREATE TABLE t(k PRIMARY KEY, b) WITHOUT ROWID; $(up_to 40) INSERT INTO t SELECT printf('%03d', n * 37 % 101) || hex(zeroblob(300)), n FROM k"
    row 'the chain of another row' are_put_back 20373 '\054'
    made "CREATE TABLE t(k PRIMARY KEY, b) WITHOUT ROWID; $(up_to 40) INSERT INTO t SELECT printf('%03d', n * 7) || hex(zeroblob(300)), n FROM k"
    row 'the chain of another row, of one in an interior page' are_put_back 17586 '\0\0\0\062'
    made "CREATE TABLE v(a); CREATE TABLE t(a); INSERT INTO v VALUES (printf('%01200d', 5)); $(up_to 20) INSERT INTO t SELECT printf('%0900d', n) FROM k;
        INSERT INTO v VALUES (printf('%01200d', 7)); $(for n in 1 2 3 {6..11} {14..20}; do echo "DELETE FROM t WHERE rowid = $n;"; done)"
    row 'a leaf of the freelist' are_put_back 8703 '\040'
    made "CREATE TABLE v(a); CREATE TABLE t(a); $(up_to 3) INSERT INTO t SELECT zeroblob(1499 + n) FROM k; INSERT INTO v VALUES (printf('%01500d', 7))"
    for n in 4 7; do
        row "the chain of the only row of a table, put $n" are_put_back 1023 "\\0$n"
    done
    [ "$rows" = 5 ]
}

# The first pointer leads into the zeros of a row, where a cell would have no bytes and rowid 0.
@test 'mend finds two cell pointers of a page, of which one leads to where a rowid would be out of order' {
    needs sqlite3
    made "CREATE TABLE t(a); $(up_to 4) INSERT INTO t SELECT zeroblob(100) FROM k"
    row 'cells 1 and 2 of four' are_put_back 522 '\01\0223' 524 '\040\0100'
    made "CREATE TABLE t(a, b); $(up_to 60) INSERT INTO t SELECT n, zeroblob(n % 60) FROM k"
    row 'a cell in a row after it, and a later one' are_put_back 1544 '\0\0155' 1566 '\0\0'
    [ "$rows" = 2 ]
}

# Rows that were deleted and added again stand out of order in their page.
@test 'mend finds three cell pointers of a page where cells are out of order, and of a page of the schema' {
    local table
    needs sqlite3
    made "CREATE TABLE t(id INTEGER PRIMARY KEY, a); $(up_to 12) INSERT INTO t SELECT n, printf('%01000d', n) FROM k;
        DELETE FROM t WHERE id IN (2, 5, 6, 9); INSERT INTO t SELECT value, printf('%01500d', value) FROM json_each('[9, 2, 6, 5]')"
    row 'three pointers' are_put_back 12298 '\0\0' 12304 '\0\010' 12307 '\0'
    made "$(for table in {10..25}; do echo "CREATE TABLE t$table(a, b); INSERT INTO t$table VALUES ($table, 2 * $table);"; done)
        DROP TABLE t11; DROP TABLE t14; CREATE TABLE u1(a); CREATE TABLE u2(a); CREATE INDEX i3 ON t20(a);
        INSERT INTO u1 VALUES (7); INSERT INTO u2 VALUES (8)"
    row 'three pointers of a page of the schema' are_put_back 7180 ' ' 7183 '\0270' 7189 '\0'
    [ "$rows" = 2 ]
}

# Of each page some rows were deleted, and what they had is still there.
@test 'mend finds numbers of a page with reserved bytes, with fragments, with cells of three bytes, and of page 1 with a freeblock' {
    local bytes
    needs sqlite3
    reserving 8 "CREATE TABLE t(a); $(up_to 12) INSERT INTO t SELECT 'q' || n FROM k; DELETE FROM t WHERE rowid IN (3, 11, 12)"
    for bytes in '\0\010' '\0\04' '\0\0'; do
        row "a count of 9, put $bytes" are_put_back 515 "$bytes"
    done
    reserving 24 "CREATE TABLE t(a); $(up_to 25) INSERT INTO t SELECT n % 3 FROM k; DELETE FROM t WHERE rowid > 22"
    for bytes in '\04' '\010'; do
        row "no fragments, put $bytes" are_put_back 519 "$bytes"
    done
    reserving 16 "CREATE TABLE t(a); $(up_to 20) INSERT INTO t SELECT 'row number ' || n FROM k; DELETE FROM t WHERE rowid = 1"
    row 'the size of a freeblock that ends before the reserved bytes' are_put_back 994 '\0\0377'
    reserving 32 "CREATE TABLE t(a); $(up_to 5) INSERT INTO t SELECT zeroblob(420) FROM k"
    row 'the count of a leaf of one cell, and its fragments' are_put_back 2051 '\0\0' 2055 '\045'
    made "CREATE TABLE t(id INTEGER PRIMARY KEY, a); $(up_to 20) INSERT INTO t SELECT n, 'row ' || n FROM k; DELETE FROM t WHERE id = 16;
        INSERT INTO t VALUES (16, 'row '); DELETE FROM t WHERE id IN (18, 19, 20)"
    for bytes in '\0\020' '\0\016'; do
        row "a count of 17, put $bytes" are_put_back 515 "$bytes"
    done
    made "CREATE TABLE t(k PRIMARY KEY) WITHOUT ROWID; $(up_to 7) INSERT INTO t SELECT n - 1 FROM k; DELETE FROM t WHERE k > 4"
    for bytes in '\0\04' '\0\03'; do
        row "a count of 5, put $bytes" are_put_back 515 "$bytes"
    done
    made "CREATE TABLE t(k PRIMARY KEY) WITHOUT ROWID; INSERT INTO t VALUES (0), (1), (''), (x''), (2), (3), (1.5), (4), (5);
        DELETE FROM t WHERE k > 3 AND k < 6"
    row 'a pointer to a cell of three bytes' are_put_back 522 '\0\0'
    made 'CREATE TABLE s(a); CREATE TABLE t(a); CREATE TABLE u(a); DROP TABLE t'
    row 'a freeblock of page 1' [ "$(number_at 101)" -gt 0 ]
    for bytes in '\0\0' '\0\04' '\01\0377'; do
        row "its place, put $bytes" are_put_back 101 "$bytes"
    done
    [ "$rows" = 16 ]
}

# The content area begins with fragmented bytes, in which a cell of four bytes could be.
@test 'mend does not put a pointer to a whole record before it, where the record would be cut' {
    needs sqlite3
    made "PRAGMA auto_vacuum = 1; CREATE TABLE t(a, b); CREATE INDEX i ON t(b DESC);
        $(up_to 100) INSERT INTO t SELECT n, substr('abcdefghijklmnopqrstuvwxyz', 1, n * 11 % 9) FROM k;
        DELETE FROM t WHERE a % 3 = 1; DELETE FROM t WHERE a = 84; DELETE FROM t WHERE a = 57; UPDATE t SET b = substr(b, 5) WHERE a % 2 = 0"
    row 'a content start of 139' [ "$(number_at 3589)" = 139 ]
    row 'a content start of 139, put 141' has_rows_back 3589 '\0\0215'
}

# The content area could begin with what is there.
@test 'mend finds the pointer of the only row of a page where it leads a few bytes late' {
    local late size
    needs sqlite3
    for size in 512 4096 65536; do
        made "CREATE TABLE t(a INTEGER PRIMARY KEY, b TEXT, c); INSERT INTO t VALUES (1, '2', 3)" "$size"
        for late in 1 2 3 4; do
            row "$late bytes in a page of $size bytes" are_put_back $((size + 8)) "$(short $((size - 8 + late)))"
        done
    done
    [ "$rows" = 12 ]
}

# One bit of where the content area begins: then it begins with one of the cells, and with fewer of them the page would be sound too.
@test 'mend leaves out no cell where the content area begins with a later one' {
    local bytes
    needs sqlite3
    made "CREATE TABLE t(id INTEGER PRIMARY KEY, a); $(up_to 100) INSERT INTO t SELECT n, printf('%027d', n) FROM k" 4096
    row 'a start of 896' [ "$(number_at 4101)" = 896 ]
    for bytes in '\03\0240' '\03\0300' '\07\0200' '\013\0200'; do
        row "a start of 896, put $bytes" are_put_back 4101 "$bytes"
    done
    [ "$rows" = 5 ]
}

# Both trees are sound with the leaf of t as the root of u, and the other way round.
@test 'mend finds a child of a table that names the root of another one, and a root that names a child' {
    local t u
    needs sqlite3
    t="CREATE TABLE t(id INTEGER PRIMARY KEY, a); $(up_to 60) INSERT INTO t SELECT n, 'row number ' || n || ' of table t' FROM k;"
    u="CREATE TABLE u(id INTEGER PRIMARY KEY, a); INSERT INTO u VALUES (2, 'this is'), (3, 'a row of u'), (5, 'another');"
    made "CREATE TABLE s(a); $t $u CREATE TABLE v(a)"
    row 'a child that names the root of a later table' are_put_back 1531 '\0\0\0\010'
    made "$t CREATE TABLE s(a); $u"
    row 'a child that names the root of the last table' are_put_back 1019 '\0\0\0\010'
    made "CREATE TABLE u(id INTEGER PRIMARY KEY, a); $t ${u#*;}"
    row 'a root that names a child' are_put_back "$(root_at 'CREATE TABLE u(')" '\04'
    made "CREATE TABLE s(a); CREATE TABLE t(id INTEGER PRIMARY KEY, a); $(up_to 12) INSERT INTO t SELECT n, zeroblob(700) FROM k"
    row 'a root that names an overflow page of its table' are_put_back "$(root_at 'CREATE TABLE t(')" '\04'
    made "CREATE TABLE t(id INTEGER PRIMARY KEY, a REAL); CREATE INDEX i ON t(a); $(up_to 200)
        INSERT INTO t SELECT n * 5 - 700, (n * 7919 % 1009 - 500) * 0.37 FROM k"
    row 'a child that names the root of an index of many pages, and another child' are_put_back 520 '\0\0\0\03' 935 '\0\0\0\0'
    [ "$rows" = 5 ]
}

@test 'mend finds children and roots by what is lost with them: pages of an index, overflow pages' {
    local bytes
    needs sqlite3
    made "CREATE TABLE t(a); CREATE INDEX i ON t(a); $(up_to 400) INSERT INTO t SELECT printf('%060d', n * 7919 % 9973) FROM k"
    row 'a child of an index of three levels' are_put_back 1032 '\0\0\0\0'
    for bytes in '\0143' '\02'; do
        row "its root, put $bytes" are_put_back "$(root_at 'CREATE INDEX i ')" "$bytes"
    done
    row 'the root of its table' are_put_back "$(root_at 'CREATE TABLE t(')" '\03'
    made "CREATE TABLE s(a); CREATE TABLE t(id INTEGER PRIMARY KEY, a); $(up_to 12) INSERT INTO t SELECT n, zeroblob(700) FROM k"
    row 'the root of a table whose rows have overflow pages' are_put_back "$(root_at 'CREATE TABLE t(')" '\0143'
    made "CREATE TABLE t(a PRIMARY KEY, b) WITHOUT ROWID; $(up_to 40) INSERT INTO t SELECT printf('%03d', n * 7) || hex(zeroblob(100)), n FROM k"
    row 'the overflow page of a row of an interior page' are_put_back 1020 '\0\0\0\0'
    [ "$rows" = 6 ]
}

# named_twice WHAT KEY VALUES [SIZE]: of an index with this key, of 20 rows with such values, each child is put back that names the page of the
# next one. Which of the two is wrong only the keys say.
named_twice() {
    local one other
    made "CREATE TABLE t(a, b DEFAULT 0); CREATE INDEX i ON t($2); $(up_to 20) INSERT INTO t(a) SELECT $3 FROM k" "${4:-512}"
    children_of i > "$work/children"
    while read -r one other; do
        row "$1: $one, the page of $other" is_put_back "$one" "$(page_at "$other")"
    done < <(tail -n +2 "$work/children" | paste "$work/children" - | awk 'NF == 2')
}

# With NOCASE _ comes before each letter, and bytes above 127 come after those below. The header of a record of 132 columns has a size of two
# bytes. Of blobs that go on in overflow pages the first bytes alone are looked at: how many those are says nothing of their order.
@test 'mend finds which of two children of an index names the page of the other, by letters, prefixes and records of 132 columns' {
    local places child
    needs python3 sqlite3
    named_twice 'letters in any case, and _' 'a COLLATE NOCASE' "substr('_aB', 1 + n % 3, 1) || printf('%060d', n)"
    named_twice 'letters that are not of ASCII' a "substr('zé', 1 + n % 2, 1) || printf('%060d', n)"
    named_twice 'texts of which each begins with the one before' a "printf('%0*d', 40 + n * 37 % 41, 0)"
    named_twice '132 columns' "a$(printf ', b%.0s' {1..130})" 'n * 7919 % 997 - 500' 1024
    [ "$rows" -gt 7 ]
    made "CREATE TABLE t(a); CREATE INDEX i ON t(zeroblob(a)); $(up_to 40) INSERT INTO t SELECT n * 7 % 61 * 10 FROM k"
    mapfile -t places < <(children_of i)
    for child in 3 4; do
        row "blobs: the first child, the page of child $child" is_put_back "${places[0]}" "$(page_at "${places[child]}")"
    done
}

# With the child its own children are lost, of which no other page names the last one.
@test 'mend finds a child of an index that has many children of its own' {
    local at
    needs python3 sqlite3
    made "CREATE TABLE t(a PRIMARY KEY) WITHOUT ROWID; WITH RECURSIVE k(n) AS (SELECT 300 UNION ALL SELECT n - 1 FROM k WHERE n > 1)
        INSERT INTO t SELECT printf('%04d%088d', n, 0) FROM k"
    for at in $(children_of t); do
        row "the child at $at" are_put_back "$at" '\0\0\0\0'
    done
    [ "$rows" -gt 1 ]
}

# A view has no root page. Where it is the last row of a page of the schema, the root pages go on after that of the table before it.
@test 'mend finds which table names the root page of the next one, also on the next page of the schema' {
    local table
    needs sqlite3
    made "$(printf 'CREATE TABLE t%d(a); CREATE VIEW v%d AS SELECT 1;' {10..19}{,})"
    row 'page 1 is an interior page' [ "$(type_of 1)" = 5 ]
    for table in {10..18}; do
        row "t$table, the root of the next" is_put_back "$(root_at "CREATE TABLE t$table(")" \
            "$(byte_at "$(root_at "CREATE TABLE t$((table + 1))(")")"
    done
    [ "$rows" = 10 ]
}

# The bytes that such a pointer leaves out are no fragments. Of two pointers one is 0, and a later one leads into the cell after that: the cell
# of the later one is not put for the other, where its key would be out of order.
@test 'mend finds pointers of cells of an index that lead a byte or two late, or into another cell' {
    local cell bytes pair one other at
    needs sqlite3
    made "CREATE TABLE t(a); CREATE INDEX i ON t(a); $(up_to 20) INSERT INTO t SELECT n FROM k"
    for cell in 1 12 19; do
        for bytes in 1 2; do
            at=$(pointer i "$cell")
            row "cell $cell, $bytes late" is_put_back "$at" "$(later "$at" "$bytes")"
        done
    done
    made "CREATE TABLE t(a); CREATE INDEX i ON t(a); $(up_to 10) INSERT INTO t SELECT 'text ' || (n * 7919 % 211) FROM k"
    for pair in '0 3' '3 9' '6 8'; do
        read -r one other <<< "$pair"
        row "no cell $one, and $other leads into the one after" are_put_back "$(pointer i "$one")" '\0\0' "$(pointer i "$other")" \
            "$(later "$(pointer i $((one + 1)))" 2)"
    done
    [ "$rows" = 9 ]
}

# A byte late in a row of 70 columns, most of them NULL, is what looks like a cell, but its record has another length than it says. So it is
# where two pointers lead a byte late or early: then the pointers are wrong, and no length.
@test 'mend finds two pointers of a table of which one names the cell of the other, or both lead a byte late or early' {
    local first at cell cells values bytes
    needs sqlite3
    made "CREATE TABLE t(a, b$(printf ', c%d' {1..68})); $(up_to 6) INSERT INTO t(a, c68) SELECT n, 'z' || n FROM k"
    first=$(pointer t 0)
    for cell in 3 4 5; do
        at=$(pointer t "$cell")
        row "the first leads to cell $cell, and that of cell $cell a byte late" are_put_back "$first" "$(later "$at" 0)" "$at" "$(later "$at" 1)"
    done
    while read -r values bytes cells; do
        made "CREATE TABLE t(a); $(up_to 7) INSERT INTO t SELECT $values FROM k"
        read -r first at <<< "$(pointer t "${cells% *}") $(pointer t "${cells#* }")"
        row "$values: cells $cells, $bytes later" are_put_back "$first" "$(later "$first" "$bytes")" "$at" "$(later "$at" "$bytes")"
    done << 'END'
n%2 1 2 3
n%2 1 3 4
-n -1 1 2
n*10 -1 1 2
END
    [ "$rows" = 7 ]
}

# The bytes of the row in page 3 are those of a trunk of two leaves, itself and the schema, which is in use. And a trunk of a page with 24
# reserved bytes has room for 120 leaves.
@test 'mend finds an overflow page that looks like a trunk, and how many leaves a trunk of a page with reserved bytes has' {
    local bytes
    needs sqlite3
    made 'CREATE TABLE t(a); INSERT INTO t VALUES (zeroblob(1200))'
    row 'the chain begins with page 3' [ "$(number_at 1020 4) $(number_at 1024 4)" = '3 4' ]
    put_at "$work/x.db" 1028 '\0\0\0\02\0\0\0\03\0\0\0\01'
    row 'the chain of the row' are_put_back 1020 '\0\0\0\0143'
    reserving 24 "CREATE TABLE t(a); CREATE TABLE u(a); $(up_to 60) INSERT INTO t SELECT zeroblob(430) FROM k; DELETE FROM t;
        INSERT INTO u VALUES (zeroblob(2000))"
    for bytes in '\0170' '\0171' '\0176'; do
        row "a trunk of $(number_at $((512 * $(number_at 32 4) - 508)) 4) leaves, put $bytes" \
            are_put_back $((512 * $(number_at 32 4) - 508)) "\\0\\0\\0$bytes"
    done
    [ "$rows" = 5 ]
}

@test 'mend finds the numbers of the header and in the heads and pointers of page 1 and interior pages' {
    needs sqlite3
    while read -r what at bytes; do
        cp "$data/whole.db" "$work/x.db"
        row "$what" is_put_back "$at" "$bytes"
    done << 'END'
a_size_that_is_too_small 31 \014
the_write_version 18 \0143
a_pointer_of_an_interior_page 524 \0\0
a_pointer_of_page_1 108 \0\0
the_least_payload_fraction 22 \041
the_payload_fraction_of_leaves 23 \041
the_greatest_payload_fraction 21 \041
the_read_version 19 \0143
no_schema_format 44 \0\0\0\0
a_schema_format_that_there_is_not 44 \0\0\0\011
END
    cp "$data/whole.db" "$work/x.db"
    put_at "$work/x.db" 18 '\02\02'
    row 'the write version of a database with a -wal' is_put_back 18 '\0143'
    row 'the read version of a database with a -wal' is_put_back 19 '\0143'
    cp "$data/whole.db" "$work/x.db"
    printf '%100s' '' >> "$work/x.db"
    row 'a size that is too small, of a file with bytes after its last page' is_put_back 31 '\014'
    for at in 104 106 107; do
        made 'CREATE TABLE t(a); CREATE TABLE u(a)'
        row "the head of page 1, at $at" is_put_back "$at" '\07'
    done
    row 'the count of cells of page 1' is_put_back 104 '\0202'
    made "$(printf 'CREATE TABLE t%d(a);' {1..60})"
    row 'the right child of page 1' is_put_back 108 '\0\0\0\0'
    made "$(printf 'CREATE TABLE t%d(a);' {1..14})"
    row 'bytes reserved, where the one cell of page 1 is in them' is_put_back 20 '\010'
    reserving 16 "CREATE TABLE t(a); $(up_to 400) INSERT INTO t SELECT zeroblob(300) FROM k"
    row 'a size that is too small, of a file with reserved bytes' is_put_back 28 '\0\0\0\024'
    rm "$work/x.db"
    sqlite3 "$work/x.db" 'PRAGMA page_size = 65536; CREATE TABLE t(a)'
    row 'the content start of an empty page of 65536 bytes' is_put_back 65541 '\0\03'
}

@test 'mend finds five, eight, thirteen and sixteen numbers of the header and of pages in one run' {
    local limit numbers
    needs sqlite3
    cp "$data/whole.db" "$work/x.db"
    numbers=(18 '\011' 21 '\01\01\01' 56 '\0\0\0\07')
    row 'five' is_put_back "${numbers[@]}"
    numbers+=(44 '\0\0\0\011' 72 '\01' 64 '\0\0\0\01')
    row 'eight' is_put_back "${numbers[@]}"
    flags=(--limit 16)
    numbers+=(19 '\011' 28 '\0\0\0\014' 36 '\0\0\0\077' 52 '\0\0\0\07' 2056 '\0\0\0\0')
    row 'thirteen' is_put_back "${numbers[@]}"
    made 'PRAGMA auto_vacuum = full; CREATE TABLE t(a); INSERT INTO t VALUES (zeroblob(9000))'
    numbers=(21 '\01\01\01' 72 '\01' 512 "$(printf '\\07%.0s' {1..60})")
    row 'sixteen, of which twelve are entries of the pointer map' is_put_back "${numbers[@]}"
    row 'sixteen changes' [ "$(grep -c '^at byte' "$work/lines")" = 16 ]
    for limit in {1..15}; do
        dbck mend --limit "$limit" "$work/wrong.db"
        row "of sixteen changes the first $limit" diff <(grep '^at byte' "$work/lines" | head -n "$limit") <(grep '^at byte' "$work/out")
    done
}

# vacuumed MODE: makes x.db of two tables, with a pointer map for this auto_vacuum.
vacuumed() {
    made "PRAGMA auto_vacuum = $1; CREATE TABLE t(a); CREATE TABLE u(a); INSERT INTO t VALUES (zeroblob(3000))"
}

# 3 is a root page, so that no rule says that 3 is wrong, and page 2 would be one of a pointer map.
@test 'mend finds the greatest root page, and that there is none in a file without a pointer map' {
    local number count
    needs sqlite3
    cp "$data/whole.db" "$work/x.db"
    while read -r number count; do
        row "none, where byte 52 has the number $number" is_put_back 52 "\\0\\0\\0\\0$number"
        exactly 1 "$count faults"$'\n'"at byte 52 put 00000000 for 0000000$number"$'\n    page 1 at byte 0\nok\n' '' mend "$work/wrong.db"
    done <<< $'7 13\n3 12'
    vacuumed incremental
    row 'that of an incremental vacuum' are_put_back 52 '\0\0\0\0'
    row 'a wrong one of an incremental vacuum' are_put_back 52 '\0\0\0\03'
    # The root of v is moved to the page of that of t: so that of u, in the row before, is the greatest.
    made 'PRAGMA auto_vacuum = incremental; CREATE TABLE t(a); CREATE TABLE u(a); CREATE TABLE v(a); DROP TABLE t'
    row 'the greatest root is not that of the last row' [ "$(sqlite3 "$work/x.db" 'SELECT group_concat(rootpage) FROM sqlite_schema')" = 4,3 ]
    row 'that of an incremental vacuum where it is in the first row' are_put_back 52 '\0\0\0\0'
    vacuumed full
    row 'a wrong one of a full vacuum' are_put_back 52 '\0\0\0\07'
}

# These are pages past the end, and the root of t.
@test 'mend finds that there is no first trunk in a file without a freelist' {
    local number
    needs sqlite3
    made 'CREATE TABLE t(a); INSERT INTO t VALUES (1)'
    for number in '\0\0\0\011' '\0\0\0\02' '\0377\0\0\0'; do
        row "a first trunk of $number" are_put_back 32 "$number"
    done
}

@test 'mend finds the encoding where it is 0' {
    local encoding
    needs sqlite3
    for encoding in UTF-8 UTF-16le UTF-16be; do
        made "PRAGMA encoding = '$encoding'; CREATE TABLE t(a); CREATE INDEX i ON t(a); INSERT INTO t VALUES (1)"
        row "$encoding" are_put_back 56 '\0\0\0\0'
    done
}

# From byte 92 on come numbers that SQLite writes.
@test 'mend puts zeros for reserved bytes of the header, and for no byte after them' {
    cp "$data/whole.db" "$work/x.db"
    row 'bytes 90 and 91' is_put_back 90 '\011'
    exactly 1 $'1 fault\nat byte 90 put 0000 for 0900\n    page 1 at byte 0\nok\n' '' mend "$work/wrong.db"
}

# Pages 2 and 6 are the root and a leaf of t, and pages 3 and 4 those of i.
@test 'mend finds the types of interior pages and leaves, of a table and of an index' {
    local page
    needs sqlite3
    made "CREATE TABLE t(a); CREATE INDEX i ON t(a); $(up_to 400)
        INSERT INTO t SELECT n FROM k;"
    for page in 2 3 4 6; do
        row "the type of page $page" is_put_back $((512 * (page - 1))) '\0'
    done
    # Interior pages that say to be leaves, and a leaf that says to be an interior page. Page 6 has no room for pointers that begin later.
    row 'page 2, of type 13' is_put_back 512 '\015'
    row 'page 3, of type 10' is_put_back 1024 '\012'
    row 'page 4, of type 2' is_put_back 1536 '\02'
}

# A cell and its pointer take 12 bytes, so 42 fill a page. As an interior page it has 4 bytes more before its pointers, and P03 alone.
@test 'mend finds the type of a leaf without a free byte, of a child and of a root page' {
    needs sqlite3
    made "CREATE TABLE t(a); $(up_to 100)
        INSERT INTO t SELECT printf('%06d', n) FROM k;"
    row 'page 3 is full' [ "$(number_at 1027)" = 42 ]
    row 'a child' are_put_back 1024 '\05'
    made "CREATE TABLE t(a); CREATE INDEX i ON t(a); WITH RECURSIVE k(n) AS (SELECT 2 UNION ALL SELECT n + 1 FROM k WHERE n < 43)
        INSERT INTO t SELECT printf('%05d', n) FROM k;"
    row 'page 3 is full' [ "$(number_at 1027)" = 42 ]
    row 'the root page of an index' are_put_back 1024 '\02'
    dbck check "$work/wrong.db"
    row 'P03' grep -q '^P03 page 3 ' "$work/out"
    row 'one fault' [ "$(wc -l < "$work/out")" = 1 ]
}

# The root page of a table may be one of an index, if the table has no rowids: no fault names its type.
@test 'mend finds the type of a root page of a table that says to be one of an index' {
    local count kind
    needs sqlite3
    for count in 1 20 200; do
        made "CREATE TABLE t(a); $(up_to $count) INSERT INTO t SELECT 'row ' || n FROM k;"
        for kind in '\02' '\05' '\012' '\015'; do
            row "$count rows, type $kind" are_put_back 512 "$kind"
        done
    done
    [ "$rows" = 12 ]
}

@test 'mend finds the type of page 1, a leaf and an interior page' {
    local bytes
    needs sqlite3
    made 'CREATE TABLE t(a); CREATE INDEX i ON t(a)'
    for bytes in '\0' '\05' 'x'; do
        row "page 1, a leaf, put $bytes" are_put_back 100 "$bytes"
    done
    made "$(printf 'CREATE TABLE t%d(a);' {1..60})"
    for bytes in '\0' '\015' 'x'; do
        row "page 1, an interior page, put $bytes" are_put_back 100 "$bytes"
    done
}

# Its children cannot be told before its type is put back.
@test 'mend finds the type of an interior page, and then its last child or a pointer' {
    needs sqlite3
    made "CREATE TABLE t(a); $(up_to 60) INSERT INTO t SELECT zeroblob(100) FROM k;"
    row 'the type and the last child' are_put_back 512 '\0' 520 '\0\0\0\0'
    row 'the type and a pointer' are_put_back 512 '\0' 524 '\0\0'
}

# Each change is looked for in the page as the changes before it leave it.
@test 'mend finds the type of an interior page, and then two pointers of it' {
    needs sqlite3
    made "CREATE TABLE t(a); $(up_to 400) INSERT INTO t SELECT 'row ' || n FROM k;"
    row 'page 2 is an interior page' [ "$(type_of 2)" = 5 ]
    row 'its pointers' are_put_back 512 '\0' 526 '\0\0' 532 '\0\0'
}

# The row is read before the freelist, so the fault is of the trunk. But the numbers beside that one in the trunk are near it.
@test 'mend finds the overflow chain of a row that names a leaf of the freelist' {
    local at page
    needs sqlite3
    made "CREATE TABLE t(a); $(up_to 6) INSERT INTO t SELECT zeroblob(560) FROM k;
        CREATE TABLE u(a); INSERT INTO u VALUES (zeroblob(9000)); DROP TABLE u"
    page=$(number_at $((512 * $(number_at 32 4) - 512 + 8 + 4 * 5)) 4)
    for at in 1020 958 896 834 772; do
        row "the chain at $at, put page $page" are_put_back "$at" "\\0\\0$(short "$page")"
    done
    [ "$rows" = 5 ]
}

@test 'mend finds an entry of the second page of the pointer map, and of the first page of a chain' {
    needs sqlite3
    made 'PRAGMA auto_vacuum = full; CREATE TABLE t(a); INSERT INTO t VALUES (zeroblob(150000))'
    row 'an entry for page 107' is_put_back 53272 n
    row 'an entry for page 4, the first of a chain' is_put_back 517 '\07\07\07\07\07'
}

# Pages 3 and 4 are the roots of t and u. With the rows of t gone, the pages from 5 on are free: page 5 is a trunk, and the others its leaves.
@test 'mend finds the entry of a root page and of a free page in the pointer map' {
    local mode page pages
    needs sqlite3
    for mode in full incremental; do
        vacuumed "$mode"
        for page in 3 4; do
            row "root page $page, auto_vacuum = $mode" are_put_back $((512 + 5 * (page - 3))) '\07\07\07\07\07'
        done
    done
    sqlite3 "$work/x.db" 'DELETE FROM t'
    pages=$(($(wc -c < "$work/x.db") / 512))
    row 'free pages' [ "$(sqlite3 "$work/x.db" 'PRAGMA freelist_count')" = $((pages - 4)) ]
    for ((page = 5; page <= pages; page++)); do
        row "free page $page" are_put_back $((512 + 5 * (page - 3))) '\07\07\07\07\07'
    done
    [ "$rows" -gt 8 ]
}

# freed ROWS: makes x.db, whose table t had so many rows, of a page each, and has none. The row of u has some of their pages again.
freed() {
    made "CREATE TABLE t(a); CREATE TABLE u(a); $(up_to $1)
        INSERT INTO t SELECT zeroblob(450) FROM k; DELETE FROM t; INSERT INTO u VALUES (zeroblob(2000))"
}

# A trunk of SQLite has at most 120 leaves in a page of 512 bytes: so there are one, two and four trunks.
@test 'mend finds the first trunk of a freelist of one trunk, and of some, of which the others are full' {
    local count
    needs sqlite3
    for count in 90 130 400; do
        freed "$count"
        row "the first trunk, of $count rows" are_put_back 32 '\0\01\0\0'
    done
}

# The row that was added last goes first: so its overflow page is the trunk, and those of the others are leaves before it.
@test 'mend finds the first trunk of a freelist whose leaves come before it' {
    needs sqlite3
    made "CREATE TABLE t(a); $(up_to 20) INSERT INTO t SELECT zeroblob(900) FROM k;
        $(seq -f 'DELETE FROM t WHERE rowid = %.0f;' 20 -1 1)"
    row 'leaves before the trunk' [ "$(number_at 32 4)" -gt 12 ]
    row 'the first trunk' are_put_back 32 '\0\01\0\0'
}

# Then its leaves are lost with it. Where a leaf is named in its place, that is in use as a trunk.
@test 'mend finds the next trunk where there is none, the one after it, or a leaf of it, a leaf where a page in use is named, and a root' {
    local first second third leaf page
    needs sqlite3
    freed 480
    first=$(number_at 32 4)
    second=$(number_at $((512 * first - 512)) 4)
    third=$(number_at $((512 * second - 512)) 4)
    leaf=$(number_at $((512 * second - 504)) 4)
    for page in 0 "$third" "$leaf"; do
        row "page $page" are_put_back $((512 * first - 512)) "\\0\\0$(short "$page")"
    done
    row "the first trunk, page $leaf" are_put_back 32 "\\0\\0$(short "$leaf")"
    page=$("$DBCK" stat --all "$work/x.db" | awk -F '\t' '$4 == "overflow" { print $3; exit }')
    row "a leaf, page $page of a chain" are_put_back $((512 * first - 492)) "\\0\\0$(short "$page")"
    # The last trunk is taken for a root page, and its leaves are lost.
    made "CREATE TABLE t(a); CREATE TABLE u(a); $(up_to 760) INSERT INTO t SELECT zeroblob(450) FROM k; DELETE FROM t WHERE rowid > 20;
        INSERT INTO u VALUES (zeroblob(12000)); CREATE TABLE v(a); INSERT INTO v VALUES (1)"
    row 'a root that names the last of seven trunks' are_put_back "$(root_at 'CREATE TABLE v(')" '\031'
    [ "$rows" = 6 ]
}

@test 'mend finds how many leaves a trunk has, of one that is not full, of a full one, and of one without leaves' {
    local count trunk
    needs sqlite3
    for count in 90 130; do
        freed "$count"
        trunk=$(number_at 32 4)
        while [ "$trunk" != 0 ]; do
            for bytes in '\0\0\0\0' '\0\0\0\01' '\0\0\0\0176' '\0\0\0\0177' '\0\0\0\0377' '\0377\0377\0377\0377'; do
                row "trunk $trunk of $count rows, put $bytes" are_put_back $((512 * trunk - 508)) "$bytes"
            done
            trunk=$(number_at $((512 * trunk - 512)) 4)
        done
    done
    freed 400
    trunk=$(number_at 32 4)
    row 'two of four trunks' are_put_back \
        $((512 * trunk - 508)) '\0\0\0\011' $((512 * $(number_at $((512 * trunk - 512)) 4) - 508)) '\0\0\0\011'
    made 'CREATE TABLE t(a); CREATE TABLE u(a); DROP TABLE u'
    row 'a trunk without leaves' are_put_back $((512 * $(number_at 32 4) - 508)) '\0\0\0\01'
    [ "$rows" = 20 ]
}

@test 'beside a page that is lost for good mend finds a number' {
    one_small 'whole: 3 0 7878787878787878787878787878787878787878, 5 8 00000000' "$work/two.db"
    dbck mend "$work/two.db"
    ended 1 $'*at byte 2056 put 00000007 for 00000000\n    page 5 at byte 2048\n    1 fault is left\n1 fault is left\n' ''
}

# The pages from 3 on are the leaves of t, of four rows each. One of them is left between the lost ones and the one that is found.
@test 'beside three to seven pages that are lost for good mend finds the type of one more, and beside 35 a pointer of the last page' {
    local lost at left
    needs sqlite3
    for lost in 3 4 5 6 7; do
        made "CREATE TABLE t(a); $(up_to 40) INSERT INTO t SELECT zeroblob(100) FROM k;"
        dd if=/dev/zero of="$work/x.db" bs=512 seek=2 count="$lost" conv=notrunc status=none
        at=$((512 * (lost + 3))) left="$lost faults are left"
        put_at "$work/x.db" "$at" '\0'
        exactly 1 "$((lost + 1)) faults"$'\n'"at byte $at put 0d for 00"$'\n'"    page $((lost + 4)) at byte $at"$'\n'"    $left"$'\n'"$left"$'\n' \
            '' mend "$work/x.db"
    done
    made "CREATE TABLE t(a); $(up_to 160) INSERT INTO t SELECT zeroblob(100) FROM k; CREATE TABLE u(a); INSERT INTO u VALUES (1), (2), (3)"
    dd if=/dev/zero of="$work/x.db" bs=512 seek=2 count=35 conv=notrunc status=none
    at=$((512 * 42 + 8)) left='35 faults are left'
    put_at "$work/x.db" "$at" '\0\0'
    exactly 1 $'36 faults\n'"at byte $at put 01fc for 0000"$'\n'"    page 43 at byte 21504"$'\n'"    $left"$'\n'"$left"$'\n' '' mend "$work/x.db"
}

# refused NAME OFFSET BYTES TEXT [WORDS..]: NAME.db of tests with these bytes at an offset is refused, and mend writes this, and the notes and
# the error of check.
refused() {
    local name=$1 offset=$2 bytes=$3 text=$4
    cp "$data/$name.db" "$work/refused.db"
    put_at "$work/refused.db" "$offset" "$bytes"
    dbck check "$work/refused.db"
    cp "$work/err" "$work/complaint"
    row "check of $name refused" ended 3 '' "*dbck: E[1-7] *"
    exactly 3 "$text" "$(< "$work/complaint")"$'\n' mend "${@:5}" "$work/refused.db"
}

@test 'of a file that is refused mend first writes a change with which it is read' {
    zeros='\0\0\0\0\0\0\0\0\0\0\0\0\0\0\0\0'
    magic='at byte 0 put 53514c69746520666f726d6174203300 for 00000000000000000000000000000000
    page 1 at byte 0
'
    refused whole 0 "$zeros" "$magic"$'ok\n'
    # Its first letter alone.
    refused whole 0 'X' $'at byte 0 put 53514c69746520666f726d6174203300 for 58514c69746520666f726d6174203300\n    page 1 at byte 0\nok\n'
    # The page size, which is 512.
    refused whole 16 '\0\0' $'at byte 16 put 0200 for 0000\n    page 1 at byte 0\nok\n'
    # 255 bytes of each page are reserved.
    refused whole 20 '\0377' $'at byte 20 put 00 for ff\n    page 1 at byte 0\nok\n'
    # Then the root of a table, as of the file that is not refused.
    refused two-tables 0 "$zeros" "$magic"$'    2 faults are left\nat byte 1526 put 00000007 for 00000005\n    page 3 at byte 1024\nok\n'
    refused two-tables 0 "$zeros" "$magic"$'    2 faults are left\n2 faults are left\n' --limit 1
    # Two numbers of which each alone is refused, and no database at all.
    cp "$data/whole.db" "$work/two.db"
    put_at "$work/two.db" 0 "$zeros\0\0"
    dbck mend "$work/two.db"
    row 'mend of two numbers that are refused' ended 3 '' '*dbck: E2 *'
    dbck mend "$0"
    row 'mend of a text' ended 3 '' '*dbck: E2 *'
    head -c 99 "$data/whole.db" > "$work/short.db"
    dbck mend "$work/short.db"
    row 'mend of a short file' ended 3 '' '*dbck: E1 *'
}

@test 'the text of a refused file that cannot be written is status 6' {
    cp "$data/two-tables.db" "$work/refused.db"
    put_at "$work/refused.db" 0 X
    status=0
    "$DBCK" mend "$work/refused.db" > /dev/full 2> "$work/err" < /dev/null 3>&- || status=$?
    : > "$work/out"
    row 'mend of a refused file to a full disk' ended 6 '' "*$full$unwritten"
}

@test 'of databases of which numbers were overwritten, what mend calls ok is sound, and it is most of each kind' {
    needs python3 sqlite3
    row 'numbers overwritten' tests/mend.py --copies 3 --shape rowid-512 --shape full-vacuum-512 --shape freelist-1024 "$DBCK" "$work/numbers"
}

# The headers of these records end on overflow pages. The bytes after such a cell on its page are not the rest of it.
@test 'mend puts no length by what is after a cell' {
    local at cell
    needs sqlite3
    made "CREATE TABLE w(a INT, b INT$(printf ', c%d DEFAULT 0' {1..129}), PRIMARY KEY(a, b)) WITHOUT ROWID;
        $(up_to 9) INSERT INTO w(a, b, c129) SELECT n, n, -n FROM k"
    for cell in 0 2 7; do
        at=$((512 + $(number_at "$(pointer w "$cell")")))
        cp "$work/x.db" "$work/wrong.db"
        put_at "$work/wrong.db" "$at" '\0\0'
        dbck mend "$work/wrong.db"
        row "cell $cell, at byte $at" ended 1 '* left'$'\n' ''
    done
}

@test 'mend finds each number of tests/overwritten.py' {
    needs python3 sqlite3
    row 'numbers' tests/overwritten.py "$DBCK" "$work/numbers"
}

@test 'with --with the changes are of the file with these bytes' {
    needs python3
    one_small 'whole: 2 507 00000000, 5 8 00000000' "$work/two.db"
    note="dbck: note: $work/two.db with 4 other bytes"$'\n'
    exactly 1 $'2 faults\nat byte 2056 put 00000007 for 00000000\n    page 5 at byte 2048\nok\n' "$note" mend --with 1019=00000003 "$work/two.db"
    exactly 0 $'ok\n' "${note/ 4 / 8 }" mend --with 1019=00000003 --with 2056=00000007 "$work/two.db"
    # What is put for which bytes is said of these, too.
    exactly 1 $'2 faults\nat byte 1526 put 00000007 for 00000001\n    page 3 at byte 1024\nok\n' \
        "dbck: note: $data/two-tables.db with 4 other bytes"$'\n' mend --with 1526=00000001 "$data/two-tables.db"
    exactly 3 '' "dbck: note: $data/whole.db has $(wc -c < "$data/whole.db") bytes"$'\ndbck: E11 a byte of --with is past the end of the file\n' \
        mend --with 99999999=00 "$data/whole.db"
}

@test 'with --recovered the changes are of the file that SQLite recovers' {
    paired
    # A payload fraction: page 1 is read from the file, and page 2 from the log.
    put_at "$work/pair.db" 21 A
    put_at "$work/whole.db" 21 A
    dbck mend "$work/whole.db"
    cp "$work/out" "$work/wanted"
    dbck mend --recovered "$work/pair.db"
    row 'what mend writes of a pair' cmp "$work/out" "$work/wanted"
    row 'the note on a pair' ended 1 $'1 fault\nat byte 21 put 40 for 41\n    page 1 at byte 0\nok\n' \
        "dbck: note: $work/pair.db-wal: 1 page of 1 transaction is read from it
dbck: note: $work/pair.db: the changes are of the database that SQLite would recover, not of this file"$'\n'
}

# The journal undoes nothing.
@test 'with --recovered a note says so beside a journal too, and beside both logs once' {
    local joined
    paired
    joined="dbck: note: $work/pair.db: the changes are of the database that SQLite would recover, not of this file"
    journal_of "$work/pair.db" <<< ''
    dbck mend --recovered "$work/pair.db"
    row 'the note beside both logs' [ "$(grep -cxF "$joined" "$work/err")" = 1 ]
    rm "$work/pair.db-wal"
    dbck mend --recovered "$work/pair.db"
    row 'the note beside a journal' [ "$(grep -cxF "$joined" "$work/err")" = 1 ]
}

@test 'the note on bytes after the last page comes beside changes, and beside a log of which nothing is read' {
    local rest
    rest=$'dbck: note: 7 bytes after page 8 are not read\n'
    cp "$data/two-tables.db" "$work/x.db"
    sparse "$work/x.db" 4103
    exactly 1 "$fixed" "$rest" mend "$work/x.db"
    echo log > "$work/x.db-wal"
    exactly 1 "$fixed" "dbck: note: $work/x.db-wal holds nothing that SQLite would read"$'\n'"$rest" mend --recovered "$work/x.db"
}

@test 'a limit is from 1 to 16' {
    for limit in 0 17 x 4294967296; do
        dbck mend --limit "$limit" "$data/whole.db"
        row "mend --limit '$limit'" ended 2 '' "dbck: invalid value '$limit' for '--limit <N>'*"
    done
    exactly 0 $'ok\n' '' mend --limit 1 "$data/whole.db"
    exactly 0 $'ok\n' '' mend --limit 16 "$data/whole.db"
}

@test 'mend without its output ends with 6' {
    dbck mend "$data/whole.db"
    for file in whole two-tables; do
        status=0
        "$DBCK" mend "$data/$file.db" > /dev/full 2> "$work/err" < /dev/null 3>&- || status=$?
        : > "$work/out"
        row "mend $file.db to a full disk" ended 6 '' "$full$unwritten"
    done
    # Who reads the first line alone.
    status=0
    { (trap '' PIPE && exec "$DBCK" mend "$data/two-tables.db" 2> "$work/err" < /dev/null 3>&-) || echo $? > "$work/ended"; } | true
    [ ! -s "$work/ended" ] || [[ $(< "$work/ended") = [16] ]]
}

@test 'mend without memory ends with 5' {
    cp "$data/empty.db" "$work/many-pages.db"
    sparse "$work/many-pages.db" 34359738368
    status=0
    (ulimit -v 40000 && exec "$DBCK" mend "$work/many-pages.db" > "$work/out" 2> "$work/err" < /dev/null 3>&-) || status=$?
    row 'mend in 40 MB' ended 5 '' $'dbck: E9 out of memory\n'
}

# is_bounded FILE WORDS..: mend ends with 1, or $ends, within a minute. For each change that it writes, and for the search of one more, there
# are at most 64 runs, which read each page once, and a look at each page; and 256 runs in all.
is_bounded() {
    local size count bytes
    size=$(wc -c < "$1")
    timeout 60 python3 tests/program/io.py "$work/counts" "$DBCK" "${@:2}" "$1" > "$work/out" 2> "$work/err" < /dev/null || return
    read -r status bytes _ < "$work/counts"
    count=$(($(grep -c '^at byte' "$work/out") + 1))
    echo "$count steps, $((bytes / size)) times the file"
    # The program itself is less than 16 MiB, and what is read ahead one.
    [ "$status" = "${ends:-1}" ] && [ "$bytes" -le $(((65 * count < 272 ? 65 * count : 272) * (size + 100) + 17825792)) ]
}

# hostile WHAT FILE: makes a file that is hard to mend.
hostile() {
    python3 - "$@" << 'END'
import sys
sys.path.insert(0, "tests/small")
from make import Database, be
what, path = sys.argv[1:]
if what == "leaves":
    # A table of 20000 leaves of zeros: each is P01.
    levels = [500, 13]
    db = Database(2 + 13 + 500 + 20000)
    db.schema(("table", "t", 2))
    db.interior(2, 15, *[(3 + k, 1600 * (k + 1)) for k in range(12)])
    for k in range(13):
        below = [16 + n for n in range(500) if n // 40 == k]
        db.interior(3 + k, below[-1], *[(page, 40 * (page - 15)) for page in below[:-1]])
    for n in range(500):
        first = 516 + 40 * n
        db.interior(16 + n, first + 39, *[(first + k, 40 * n + k + 1) for k in range(39)])
elif what == "cycles":
    # A wrong first trunk; and pages that nothing refers to, each of which names the next, in circles of a hundred.
    db = Database(20001)
    db.put(1, 32, be(99999) + be(20000))
    for page in range(2, 20002):
        last = (page - 2) // 100 * 100 + 101
        db.put(page, 0, be(page + 1 if page < last else last - 99))
elif what == "children":
    # A table of which each of 70 children is the root itself, and a thousand lost leaves.
    db = Database(1003)
    db.schema(("table", "t", 2))
    db.interior(2, 2, *[(2, k + 1) for k in range(69)])
    for page in range(3, 1004):
        db.leaf(page, page)
elif what == "references":
    # An index with 20 chains that end too early, and as many pages lost.
    db = Database(42)
    db.schema(("table", "t", 2))
    db.interior(2, 22, *[(3 + k, k + 1) for k in range(19)])
    for k in range(20):
        db.tree_page(3 + k, 13, [bytes([0x84, 0x58, k + 1]) + bytes(92) + be(0)])
open(path, "wb").write(db.bytes)
END
}

@test 'hostile files end within their runs, and a minute' {
    needs python3
    [ -r /proc/self/io ] || skip 'there is no /proc/self/io'
    for what in leaves cycles children references; do
        hostile "$what" "$work/$what.db"
        for limit in 1 16; do
            row "mend --limit $limit of $what" is_bounded "$work/$what.db" mend --limit "$limit"
        done
    done
}

@test 'a file with a wrong page size ends within its runs, and a minute' {
    needs python3
    [ -r /proc/self/io ] || skip 'there is no /proc/self/io'
    changed page-size 16 '\03'
    sparse "$work/page-size.db" 10000000
    ends=3
    row 'mend of a wrong page size' is_bounded "$work/page-size.db" mend
}

@test '800000 lost pages end within their runs, and a minute' {
    needs python3
    [ -r /proc/self/io ] || skip 'there is no /proc/self/io'
    cp "$data/empty.db" "$work/lost.db"
    sparse "$work/lost.db" $((512 * 800001))
    put_at "$work/lost.db" 32 '\0\0\0\01'
    row 'mend of 800000 lost pages' is_bounded "$work/lost.db" mend
}

@test '65536 bad roots end within their runs, and a minute' {
    [ -r /proc/self/io ] || skip 'there is no /proc/self/io'
    large tables 65536 8 "$work/roots.db"
    size=$(wc -c < "$work/roots.db")
    truncate -s $((512 * (roots - 1))) "$work/roots.db"
    sparse "$work/roots.db" "$size"
    row 'mend of 65536 bad roots' is_bounded "$work/roots.db" mend
}

@test 'progress is that of the run at hand' {
    local wiped
    needs_terminal
    large_database
    # A reserved byte of the header: one fault, and a run without it.
    put_at "$work/large.db" 72 '\01'
    on_terminal "'$DBCK' mend '$work/large.db' > '$work/report'"
    wiped="dbck: 65536 of $pages pages, 97%"$'\r\r'"$(printf '%40s' '')"$'\r'
    row 'progress of two runs' ended 1 "${wiped}dbck: run 2, 65536 of $pages pages, 97%"$'\r\r'"$(printf '%56s' '')"$'\r' ''
    row 'a report beside progress' grep -qx ok "$work/report"
}

# A page size that was overwritten, of each size that there is.
@test 'of a database whose page size is overwritten mend finds each size' {
    local size bytes
    needs sqlite3
    for size in 512 1024 2048 4096 8192 16384 32768 65536; do
        rm -f "$work/x.db"
        sqlite3 "$work/x.db" "PRAGMA page_size = $size; CREATE TABLE t (a); $(up_to 500)
            INSERT INTO t SELECT zeroblob(300) FROM k;"
        bytes=$(printf %04x $((size == 65536 ? 1 : size)))
        put_at "$work/x.db" 16 '\0\0'
        dbck mend "$work/x.db"
        row "mend of a page size of $size" ended 3 "at byte 16 put $bytes for 0000"$'\n    page 1 at byte 0\nok\n' '*dbck: E3 *'
    done
}
