#!/usr/bin/env bash
# Looks at pictures: pictures.sh DBCK FILE.. Each has to be well-formed XML that refers to nothing but itself and has no script. Where
# there is sqlite3, one more is that of a database of more than 16384 pages, in which the name of a table would be markup.
# It says which are not, and fails then.
set -u
dbck=$(realpath "${1:?give the program}")
shift
work=$(mktemp -d)
trap 'rm -rf "$work"' EXIT
picture=$work/picture.svg
status=0

# is_xml: whether the picture is well-formed.
is_xml() {
    if command -v xmllint > /dev/null; then
        xmllint --noout --nonet "$picture"
    else
        python3 -c 'import sys, xml.dom.minidom; xml.dom.minidom.parse(sys.argv[1])' "$picture"
    fi
}

# bad FILE WHY: says that there is no good picture of the file.
bad() {
    echo "no good picture of $1: $2"
    status=1
}

# look FILE: draws the picture of the file, and looks at it.
look() {
    "$dbck" map "$1" > "$picture"
    is_xml || bad "$1" 'it is not well-formed'
    ! grep -qE '<script|href|url\([^#]|@import|<!' "$picture" || bad "$1" 'it refers to something'
}

for file in "$@"; do
    look "$file"
done

# The pages of both tables alternate, and so each square has some of both.
large=$work/large.db
if command -v sqlite3 > /dev/null && sqlite3 "$large" "PRAGMA page_size = 512;
    CREATE TABLE plain (x);
    CREATE TABLE \"<b>&'\" (x);
    CREATE TRIGGER both AFTER INSERT ON plain BEGIN INSERT INTO \"<b>&'\" VALUES (new.x); END;
    WITH RECURSIVE k(n) AS (SELECT 1 UNION ALL SELECT n + 1 FROM k WHERE n < 9000) INSERT INTO plain SELECT zeroblob(400) FROM k;"; then
    look "$large"
    squares=$(grep -c '<title>pages [0-9]* to [0-9]*: ' "$picture")
    if [ "$squares" -le 8192 ] || [ "$squares" -gt 16384 ]; then
        bad "$large" "it has $squares squares"
    fi
    grep -q '<g><title>pages [0-9]* to [0-9]*: .* in table &lt;b&gt;&amp;&#39;.*<rect class="[to][0-9]*" x="[0-9]*" y="[1-5]" ' "$picture" ||
        bad "$large" 'no square is in bands'
    # Thirteen leaves of one table, far from one another, become zeros. The first leads, and the entry keeps ten more runs of pages: the
    # frames of these eleven lie above the bands of their squares, and those of the other two below.
    for page in $("$dbck" stat "$large" | awk -F '\t' '$1 == "plain" && $4 == "leaf" && ++n % 300 == 0 && n <= 3900 { print $3 }'); do
        dd if=/dev/zero of="$large" bs=512 count=1 seek=$((page - 1)) conv=notrunc status=none
    done
    look "$large"
    frame='<rect width="6" height="6" stroke="#BE0700" stroke-width="2" x="[0-9]*" fill="none"/>'
    strong=$(grep -c "\"/>$frame</g>" "$picture")
    weak=$(grep -c "</title>$frame<rect" "$picture")
    [ "$strong $weak" = '11 2' ] || bad "$large" "it has $strong strong frames and $weak weak ones"
fi
exit $status
