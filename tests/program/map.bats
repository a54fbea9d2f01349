#!/usr/bin/env bats
# The pictures of map.
load common

@test 'a picture names its file and says how many faults there are' {
    expect 0 "$picture"$' whole.db</title>\n*, no fault; *</svg>\n' '' map "$data/whole.db"
    expect 1 "$picture"$' two-owners.db</title>\n*, 2 faults; *<title>page 8: in no tree, *, with N01</title>*</svg>\n' '' map "$data/two-owners.db"
}

@test 'a file name that would be markup is text in its picture' {
    cp "$data/empty.db" "$work/<b>&.db"
    expect 0 "$picture"$' &lt;b&gt;&amp;.db</title>\n*</svg>\n' '' map "$work/<b>&.db"
    row 'the label of a picture' grep -qF ' role="img" aria-label="Pages of &lt;b&gt;&amp;.db">' "$work/out"
}

@test 'pictures are XML that refers to nothing' {
    needs xmllint python3
    cp "$data/empty.db" "$work/<b>&.db"
    row 'pictures are XML' tests/pictures.sh "$DBCK" "$data"/*.db "$work/<b>&.db" tests/sqlite/*.db
}

# has_lines TEXT: the last run has written a picture that has the lines of a text, in their order.
has_lines() {
    python3 - "$1" "$work/out" << 'END'
import sys

lines, picture = (open(path, "rb").read() for path in sys.argv[1:])
at = 0
for line in lines.splitlines():
    found = picture.find(line, at)
    if found < 0:
        sys.exit(f"not there, or not in its order: {line.decode()}")
    at = found + len(line)
if not picture[at:].endswith(b"</g>\n</svg>\n"):
    sys.exit("the picture does not end so")
END
}

@test 'map draws of each database of tests/small/map.txt the lines that stand there' {
    small map
    while IFS='|' read -r number _ name; do
        dbck map "$work/small/$number.db"
        row "map $name" has_lines "$work/small/$number.text"
    done < "$work/list"
    [ "$rows" -gt 0 ]
}

@test 'each of 10000 squares has a title, and so has the picture' {
    small map
    IFS='|' read -r number _ < <(grep -F '|kinds 40000: 1 28 00009c40' "$work/list")
    dbck map "$work/small/$number.db"
    row 'a title for each of 10000 squares, and one for the picture' [ "$(grep -o '</title>' "$work/out" | wc -l)" = 10001 ]
}

# Pages 3 to 9 are leaves below page 2. The last rowid of page 3 becomes one above all others, so that each key after it is out of order:
# those of a leaf, then that of the cell of page 2 after it, in turn. They are one injury.
@test 'each page of an injury has its wide frame, however many faults each page has' {
    needs sqlite3
    sqlite3 "$work/x.db" 'PRAGMA page_size = 512; CREATE TABLE t (id INTEGER PRIMARY KEY);
        WITH RECURSIVE n (i) AS (SELECT 0 UNION ALL SELECT i + 1 FROM n WHERE i < 399) INSERT INTO t SELECT 100000 + 2 * i FROM n;'
    put_at "$work/x.db" 1159 '\0377\0377\0177'
    dbck check --limit 1000 "$work/x.db"
    row 'faults on seven pages' [ "$(grep -c '^T06 page [24-9] item ' "$work/out")" = 343 ]
    dbck map "$work/x.db"
    row 'wide frames on pages 2 to 9' [ "$(grep -c ' stroke-width="4"><title>page [2-9]: ' "$work/out")" = 8 ]
    row 'no narrow frame' [ "$(grep -c ' stroke-width="2" paint-order' "$work/out")" = 0 ]
}

# Three squares of two pages each after one another, by half in the freelist and in no tree: each has three bands of either. In the last of
# them, and in the square after it, the pages of no tree are zeros.
@test 'a square whose pages are of two kinds is in bands' {
    local free lost
    cp "$data/empty.db" "$work/mixed.db"
    put_at "$work/mixed.db" 32 '\0\0\0\03\0\0\0\03'
    put_at "$work/mixed.db" 1024 '\0\0\0\0\0\0\0\02\0\0\0\05\0\0\0\07'
    truncate -s $((512 * 16386)) "$work/mixed.db"
    put_at "$work/mixed.db" 1636 X
    put_at "$work/mixed.db" 2660 X
    dbck map "$work/mixed.db"
    while read -r x class; do
        free="<rect class=\"t13\" x=\"$x\" y=\"0\" width=\"6\" height=\"3\"/>"
        lost="<rect class=\"$class\" x=\"$x\" y=\"3\" width=\"6\" height=\"3\"/>"
        row "the bands of the square at $x" grep -qF "$free$lost" "$work/out"
    done << 'END'
7 t15
14 t15
21 t16
END
    row 'a square of zeros' grep -q '<rect class="t16" x="28" .*<title>pages 9 to 10: 2 of one byte throughout, with N01</title>' "$work/out"
}
