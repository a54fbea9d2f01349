#!/bin/sh
# Compares the rows of `dbck stat` with those of SQLite's own table `dbstat`: compare_dbstat.sh DBCK FILE... It needs the
# sqlite3 program with dbstat. All columns are compared, but for pgoffset of overflow pages, which dbstat leaves open. Of an empty
# page of 65536 bytes dbstat counts the unused bytes 65536 too few, so that its number is negative: it is mended here. Names
# with bytes that dbck shows by their codes differ. It says which files differ, and ends with 1 where one does.
set -eu
dbck=${1:?give the program and files}
shift
work=$(mktemp -d)
trap 'rm -rf "$work"' EXIT
columns='name, path, pageno, pagetype, ncell, payload, CASE WHEN unused < 0 THEN unused + 65536 ELSE unused END, mx_payload'
status=0
for file in "$@"; do
    sqlite3 -separator "$(printf '\t')" "file:$file?mode=ro" \
        "SELECT $columns, CASE pagetype WHEN 'overflow' THEN '-' ELSE pgoffset END, pgsize FROM dbstat" | sort > "$work/theirs"
    "$dbck" stat "$file" | awk -F '\t' -v OFS='\t' '$4 == "overflow" { $9 = "-" } { print }' | sort > "$work/ours"
    if diff -u "$work/theirs" "$work/ours" > "$work/differences"; then
        echo "same $(wc -l < "$work/ours") rows: $file"
    else
        echo "different: $file"
        cat "$work/differences"
        status=1
    fi
done
exit $status
