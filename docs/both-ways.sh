#!/bin/sh
# Saves the rows of a damaged SQLite database by .recover and .dump together: "Both ways" of REPAIR.md.
usage='usage: both-ways.sh DAMAGED [NEW]

Makes the database NEW (new.db) of the rows of DAMAGED, and beside NEW:
    replaced.db    what .recover finds, with the last of several rows of one key; NEW has the first
    dumped.db      what .dump reads
    both-ways.log  the messages of sqlite3, most of which are harmless
None of the four may be there before, nor a -wal or -journal of one, and only their owner may read them. DAMAGED, and
DAMAGED-wal or DAMAGED-journal, are only copied: SQLite opens the copies, in a folder beside NEW, which takes about six
times the size of DAMAGED until the end. Then it prints what the tables of NEW have, and which tables could not be read
to their end. The exit status is 2 if it made none of the four, or says that they are not whole, as where the disk is
full; the log says why.

If you do not trust who made DAMAGED, run this as a user who can write no other file: .recover runs what stands behind a
definition of the schema. It needs a sqlite3 of 3.37 or later with .recover: the one in PATH, or the program that the
variable SQLITE3 names.'

set -u
umask 077
unset CDPATH
# A file that comes to the limit of its size is an error of the program that writes it, as a full disk is.
trap '' XFSZ
die() {
    printf 'both-ways.sh: %s\n' "$1" >&2
    exit 2
}
sql() {
    "${SQLITE3:-sqlite3}" -batch -init /dev/null -list -noheader "$@"
}

case $#:${1-} in
    1:--help | 1:-h) printf '%s\n' "$usage"; exit ;;
    1:[!-]* | 2:[!-]*) ;;
    *) printf '%s\n' "$usage" >&2; exit 2 ;;
esac
case ${2-} in -*) die "NEW must not begin with -: ./$2" ;; esac
damaged=$1 new=${2:-new.db}
[ -f "$damaged" ] || die "$damaged is not a file"
# The logs are beside what a link leads to. The point keeps a line feed at the end of a name.
damaged=$(realpath -- "$damaged" && echo .) || exit 2
damaged=${damaged%??}
beside=$(dirname -- "$new" && echo .)
beside=${beside%??}
case $(basename -- "$new") in
    replaced.db | dumped.db | both-ways.log) die "NEW must have another name than the files beside it: $new" ;;
esac
# SQLite would read a log that is there already as that of the new file.
for file in "$new" "$beside/replaced.db" "$beside/dumped.db" "$beside/both-ways.log"; do
    for end in '' -wal -journal; do
        [ ! -e "$file$end" ] || die "$file$end is there already"
    done
done
sql :memory: 'SELECT count(*) FROM pragma_table_list' > /dev/null 2>&1 || die 'there is no sqlite3, or it is older than 3.37'
sql :memory: 'SELECT count(*) FROM sqlite_dbpage' > /dev/null 2>&1 ||
    die 'this sqlite3 has no .recover; REPAIR.md says how to build one (A sqlite3 with .recover)'

work=$(mktemp -d "$beside/both-ways.XXXXXX") || exit 2
work=$(cd "$work" && pwd) || exit 2
trap 'rm -rf "$work"' EXIT
trap 'exit 130' INT TERM HUP
for end in '' -wal -journal; do
    [ -e "$damaged$end" ] || continue
    for copy in damaged scratch; do
        cp "$damaged$end" "$work/$copy.db$end" || die "$damaged$end cannot be copied"
        chmod u+rw "$work/$copy.db$end"
    done
done
# last FROM COUNT: so many bytes of the journal, from so many before its end on.
last() {
    tail -c "$1" "$work/damaged.db-journal" | head -c "$2"
}
# A journal may end with the name of a super-journal, its length, a checksum and this mark. With the first copy that SQLite rolls back it would
# delete that super-journal, and roll no other copy back then. So where the super-journal is there the copies lose the mark.
if [ -e "$work/damaged.db-journal" ] && [ "$(last 8 8 | od -An -tx1 | tr -d ' ')" = d9d505f920a163d7 ]; then
    len=$(last 16 4 | od -An -tu1 | awk '{ printf "%d", (($1 * 256 + $2) * 256 + $3) * 256 + $4 }')
    if [ -s "$(last $((len + 16)) "$len" | tr '\0' '\n' | head -n 1)" ]; then
        size=$(($(wc -c < "$work/damaged.db-journal") - 8))
        for copy in damaged scratch; do
            head -c "$size" "$damaged-journal" > "$work/$copy.db-journal" || die "$damaged-journal cannot be copied"
        done
    fi
fi
before=$PWD
cd "$work" || exit 2
# All files are there from the beginning, and room for a journal. all-written is removed if something could not be written.
touch new.db replaced.db dumped.db report.db recover.sql recover.log dump.log run.sql run.out all-written both-ways.log new.db-journal 2> /dev/null ||
    die "$beside takes no more files"
rm new.db-journal
exec 3>&2 2>> both-ways.log

# SQLite takes two databases together only if their encoding is the same.
encoding=$(sql damaged.db 'PRAGMA writable_schema = ON; PRAGMA encoding')
if [ -z "$encoding" ]; then
    case $(od -An -tu1 -j 59 -N 1 damaged.db) in
        *2) encoding=UTF-16le ;;
        *3) encoding=UTF-16be ;;
        *) encoding=UTF-8 ;;
    esac
fi

# Behind a definition the damaged file may have other statements, and commands of sqlite3. So all statements are run in safe mode, which takes no
# other file but at a line with this word, which no file can know; and no line that the file gives begins with a point, as commands do.
word=${work##*.}
safe() {
    sql -safe -nonce "$word" "$@"
}
no_commands() {
    sed 's/^\./ &/'
}
# attach FILE NAME: the line and the statement that take FILE.db as NAME.
attach() {
    printf ".nonce %s\nATTACH '%s.db' AS %s;\n" "$word" "$1" "$2"
}
# pass: passes messages on to the log. Most of those of sqlite3 are about the damaged file; these say that a write failed, that memory was refused,
# or that sqlite3 ended at what safe mode forbids.
pass() {
    awk '/: (database or disk is full|disk I\/O error|out of memory)( \([0-9]+\))?$|^sqlite3 was killed|^line [0-9]+: cannot .* in safe mode$/ { lost = 1 }
        { print }
        END { exit lost }' >&2 || rm -f all-written
}
# alive STATUS NAME: says so if sqlite3 ended by a signal.
alive() {
    [ "$1" -lt 128 ] || echo "sqlite3 was killed: $2" >&2
}
# into FILE: runs the statements of standard input, which write into FILE.db, also into its schema.
into() {
    { { echo '.dbconfig defensive off'; cat; } | safe "$1.db" || alive $? "$1.db"; } 2>&1 > run.out | pass
}
into report << SQL
PRAGMA encoding = '$encoding';
CREATE TABLE plain(id INT, place TEXT, name TEXT, before TEXT, those TEXT, definition TEXT);
CREATE TABLE kept(file TEXT, place TEXT);
CREATE TABLE recovered(name TEXT, count INT);
CREATE TABLE rows(name TEXT, count INT, lost INT);
CREATE TABLE others(name TEXT, file TEXT, count INT);
CREATE TABLE whole(name TEXT, count INT);
SQL

# settings: what comes before all statements. A database that is still empty has no encoding of its own, and rows that break a CHECK are taken.
settings() {
    printf "PRAGMA encoding = '%s'; PRAGMA synchronous = OFF; PRAGMA ignore_check_constraints = ON;\n" "$encoding"
}
# with OTHER: what comes before statements that have OTHER.db as `other`.
with() {
    settings
    echo 'PRAGMA writable_schema = ON;'
    attach "$1" other
    attach report report
}
# run FILE OTHER < STATEMENTS: runs them in FILE.db. No trigger fires.
run() {
    {
        echo '.dbconfig enable_trigger off'
        with "$2"
        echo 'PRAGMA foreign_keys = OFF; PRAGMA report.synchronous = OFF;'
        cat
    } | into "$1"
}
# derive FILE OTHER < QUERY: runs the statements that a query over FILE.db gives, once all are there: it reads FILE.db until then.
derive() {
    { with "$2"; cat; echo "SELECT '-- all';"; } | safe "$1.db" | no_commands > run.sql
    if [ "$(tail -n 1 run.sql)" = '-- all' ]; then
        run "$1" "$2" < run.sql
    else
        echo "sqlite3 did not give all statements: $1.db" >&2
        rm -f all-written
    fi
}

# The tables of a database, but for SQLite's own.
tables="pragma_table_list AS l WHERE l.schema = 'main' AND l.type IN ('table', 'shadow')
    AND l.name NOT IN ('sqlite_schema', 'sqlite_master', 'sqlite_temp_schema', 'sqlite_temp_master', 'sqlite_sequence')"
# The name by which a table has its rowid: the first of three that is not a column.
rowid="(SELECT n.column1 FROM (VALUES ('_rowid_'), ('rowid'), ('oid')) AS n
    WHERE NOT l.wr AND n.column1 NOT IN (SELECT lower(name) FROM pragma_table_xinfo(l.name)) LIMIT 1)"
# each EXPRESSION OPERATOR: joins what EXPRESSION makes of the name of each column of table l. SQLite takes no expression that is deeper than
# 1000, so groups of 40 are joined.
each() {
    printf "(SELECT group_concat(part, ' %s ') FROM (SELECT '(' || group_concat(%s, ' %s ') || ')' AS part
        FROM pragma_table_info(l.name) GROUP BY cid / 40))" "$2" "$1" "$2"
}
# The columns that take a value (generated ones do not), and their values as one text.
columns="(SELECT group_concat(printf('\"%w\"', name), ', ') FROM pragma_table_info(l.name))"
values=$(each "printf('quote(\"%w\")', name)" "|| '','' ||")

# 1. .recover of SQLite 3.40.1 cannot write some tables. It may end with an error at one with a virtual column, or at one WITHOUT ROWID
# whose key is not its first columns, and it puts the rowid into a column that is named _rowid_. In scratch.db these tables get a plain
# definition: the columns that are stored, in their order. It needs no more room than the one that it replaces, so that SQLite takes no
# page for it. And if a definition is damaged, so that SQLite makes no table of it, its row of the schema is deleted: .recover would
# leave out the pages of this table, and now puts their rows into lost_and_found.

# The name of row s of the schema then: the first of three that no table has.
place="(SELECT p.column1 || s.rowid FROM (VALUES ('~'), ('^'), ('!')) AS p WHERE p.column1 || s.rowid NOT IN (SELECT name FROM pragma_table_list) LIMIT 1)"
# Whether row s of the schema is table l. If the name is damaged in one place of the row, it is whole behind CREATE TABLE.
same="(s.name = l.name OR instr(s.sql, l.name) IN (14, 15) AND s.name NOT IN (SELECT name FROM pragma_table_list)
    AND l.name NOT IN (SELECT name FROM main.sqlite_schema))"
echo 'Before .recover:' >&2
into scratch << SQL
PRAGMA writable_schema = ON;
$(attach report report)
PRAGMA main.synchronous = OFF;
PRAGMA report.synchronous = OFF;
PRAGMA main.auto_vacuum = incremental;
INSERT INTO report.plain SELECT s.rowid, $place, l.name, s.sql,
        (SELECT group_concat('c' || cid, ', ') FROM pragma_table_xinfo(l.name) WHERE hidden = 0),
        printf('CREATE TABLE "%s"(%s%s', $place,
            (SELECT group_concat('c' || cid || iif(pk AND NOT l.wr AND upper(type) = 'INTEGER'
                    AND (SELECT max(pk) FROM pragma_table_info(l.name)) = 1
                    AND NOT EXISTS (SELECT 1 FROM pragma_index_list(l.name) WHERE origin = 'pk'), ' INTEGER PRIMARY KEY', '')
                    || coalesce(iif(dflt_value LIKE '"%', ' DEFAULT ' || dflt_value, ' DEFAULT(' || dflt_value || ')'), ''), ',')
                FROM (SELECT *, iif(l.wr AND pk, pk, 9999) AS place FROM pragma_table_xinfo(l.name) WHERE hidden <> 2 ORDER BY place, cid)),
            iif(l.wr, (SELECT ',PRIMARY KEY(' || group_concat('c' || cid, ',') || '))WITHOUT ROWID'
                FROM (SELECT cid FROM pragma_table_xinfo(l.name) WHERE pk ORDER BY pk)), ')'))
    FROM main.sqlite_schema AS s, $tables AND s.type = 'table' AND $same
        AND EXISTS (SELECT 1 FROM pragma_table_xinfo(l.name) WHERE hidden = 2 OR lower(name) = '_rowid_' OR l.wr AND pk AND cid <> pk - 1);
DELETE FROM report.plain WHERE place IS NULL OR length(definition) + 2 * length(place) >
    (SELECT length(sql) + length(name) + length(tbl_name) FROM main.sqlite_schema AS s WHERE s.rowid = plain.id);
DELETE FROM main.sqlite_schema AS s WHERE rootpage > 0 AND type IS NOT 'index' AND name IS NOT 'sqlite_sequence'
    AND coalesce(sql, '') NOT LIKE 'CREATE INDEX %' AND coalesce(sql, '') NOT LIKE 'CREATE UNIQUE INDEX %'
    AND NOT EXISTS (SELECT 1 FROM pragma_table_list AS l WHERE $same);
UPDATE main.sqlite_schema AS s SET name = p.place, tbl_name = p.place, sql = p.definition FROM report.plain AS p WHERE s.rowid = p.id;
SQL

# text NAME FILE COMMAND: what a command gives of FILE.db. Its messages go to NAME.log.
text() {
    { sql "$2.db" "$3" || alive $? ".$1"; } 2> "$1.log" | no_commands
}

# 2. What .recover finds goes into new.db and replaced.db: of several rows of one key the first, and the last.
text recover scratch .recover | sed '1,10{/^PRAGMA encoding = /d;}' > recover.sql || rm -f all-written
pass < recover.log
for file in new replaced; do
    echo "$file.db, from .recover:" >&2
    {
        settings
        case $file in
            new) cat recover.sql ;;
            replaced) sed 's/^INSERT OR IGNORE/INSERT OR REPLACE/' recover.sql ;;
        esac
        # If .recover ended with an error.
        [ "$(tail -n 1 recover.sql)" = 'COMMIT;' ] || echo 'COMMIT;'
    } | into "$file"
done
rm recover.sql

# 3. What .dump reads goes into dumped.db: of each table the rows before the first page that cannot be read, and those behind the last.
echo 'dumped.db, from .dump:' >&2
{
    settings
    text dump damaged '.dump --preserve-rowids' | sed 's/^ROLLBACK; -- due to errors.*/COMMIT;/'
} | into dumped
pass < dump.log

# 4. new.db gets what only .dump gives, and what only SQLite itself can read.
echo 'new.db, from the others:' >&2

# statement NAME: the definition in the column of this name, as a statement. A comment at its end ends with its line.
statement() {
    printf "%s || iif(instr(%s, '--'), char(10), '') || ';'" "$1" "$1"
}

# lacking FILE KIND: makes what FILE.db lacks and dumped.db has.
lacking() {
    derive "$1" dumped << SQL
SELECT CASE WHEN sql LIKE 'CREATE VIRTUAL %'
        THEN printf('INSERT INTO main.sqlite_schema SELECT * FROM other.sqlite_schema WHERE type = ''table'' AND name = %Q;', name)
        ELSE $(statement sql) END
    FROM other.sqlite_schema AS o WHERE sql IS NOT NULL AND name <> 'sqlite_sequence' AND $2
        AND NOT EXISTS (SELECT 1 FROM main.sqlite_schema AS m WHERE m.name = o.name COLLATE NOCASE) ORDER BY rowid;
SQL
}

# add FILE OTHER VERB SOURCES: puts rows into FILE.db. SOURCES is a query for the name of a table, where its rows come from, and the names
# of its columns and its rowid there, or NULL if they are the same. A row is known by its rowid or key. In a table that has neither, equal
# rows are counted.
add() {
    derive "$1" "$2" << SQL
WITH source(name, place, those, id) AS ($4)
SELECT CASE
    WHEN l.wr THEN printf('INSERT OR $3 INTO main."%w"(%s) SELECT %s FROM %s;', l.name, $columns, coalesce(those, $columns), place)
    WHEN $rowid IS NOT NULL THEN printf('INSERT OR $3 INTO main."%w"(%s, %s) SELECT %s, %s FROM %s;',
        l.name, $rowid, $columns, coalesce(id, $rowid), coalesce(those, $columns), place)
    ELSE printf('WITH there(%s) AS (SELECT %s FROM %s), a AS (SELECT *, %s AS "~v" FROM there), h AS (SELECT %s AS "~v" FROM main."%w")
        INSERT OR $3 INTO main."%w"(%s) SELECT %s FROM (SELECT *, row_number() OVER (PARTITION BY "~v") AS "~n" FROM a)
        LEFT JOIN (SELECT "~v", count(*) AS "~c" FROM h GROUP BY 1) USING ("~v") WHERE "~n" > coalesce("~c", 0);',
        $columns, coalesce(those, $columns), place, $values, $values, l.name, l.name, $columns, $columns)
    END
    FROM source, $tables AND source.name = l.name;
SQL
}
# The tables of the other database as SQLite knows them, which may be more than its schema gives.
others="(SELECT name FROM pragma_table_list WHERE schema = 'other' AND type <> 'view')"
other="SELECT name, printf('other.\"%w\"', name), NULL, NULL FROM main.sqlite_schema WHERE name IN $others"
plain="SELECT m.name, printf('main.\"%w\"', place), those, '_rowid_' FROM report.plain AS p JOIN main.sqlite_schema AS m ON m.sql = p.before"

derive new new << SQL
SELECT printf('INSERT INTO report.recovered SELECT %Q, count(*) FROM main."%w";', coalesce(p.name, l.name), l.name)
    FROM (SELECT l.name FROM $tables) AS l LEFT JOIN report.plain AS p ON p.place = l.name;
SQL
for file in replaced new; do
    # A root page that leads into the schema makes its rows those of a table. The plain definitions are not in the damaged file.
    derive "$file" dumped << SQL
SELECT printf('DELETE FROM main."%w" WHERE %s;', l.name, $(each "printf('\"%w\" IN (SELECT definition FROM report.plain)', name)" OR))
    FROM $tables AND EXISTS (SELECT 1 FROM report.plain);
SQL
    # Where .dump gives no schema, the tables with a plain definition get their own.
    derive "$file" dumped << SQL
SELECT $(statement before) FROM report.plain AS p
    WHERE NOT EXISTS (SELECT 1 FROM main.sqlite_schema AS m WHERE m.name = p.name COLLATE NOCASE);
SQL
    lacking "$file" "type = 'table'"
    lacking "$file" "type = 'index' AND sql LIKE 'CREATE UNIQUE %'"
done
add replaced dumped REPLACE "$plain"
add new dumped IGNORE "$other"
add new dumped IGNORE "$plain"
add new replaced IGNORE "$other"

# Tables that SQLite can read to their end come from there too: .dump gives nothing if it cannot read the schema to its end, and both
# cut a text at its first zero byte.
add new damaged IGNORE "$other"
derive new damaged << SQL
SELECT printf('REPLACE INTO main."%w"(%s) SELECT %s FROM other."%w" NOT INDEXED WHERE %s;', name, all_columns, all_columns, name, cut)
    FROM (SELECT l.name, coalesce($rowid || ', ', '') || $columns AS all_columns,
        $(each "printf('typeof(\"%w\") = ''text'' AND instr(\"%w\", char(0))', name, name)" OR) AS cut
        FROM $tables AND (l.wr OR $rowid IS NOT NULL))
    WHERE name IN $others;
SQL

# The numbers of AUTOINCREMENT: the greatest that was found.
derive new dumped << 'SQL'
SELECT 'UPDATE main.sqlite_sequence AS s SET seq = max(seq, o.most)
        FROM (SELECT name, max(seq) AS most FROM other.sqlite_sequence GROUP BY name) AS o WHERE o.name = s.name;
    INSERT INTO main.sqlite_sequence(name, seq) SELECT name, max(seq) FROM other.sqlite_sequence
        WHERE name NOT IN (SELECT name FROM main.sqlite_sequence) GROUP BY name;'
    FROM main.sqlite_schema JOIN other.sqlite_schema USING (name) WHERE name = 'sqlite_sequence';
SQL
# If a virtual column of one row cannot be computed, none of the rows is inserted: then the table with the plain definition stays.
for file in replaced new; do
    derive "$file" dumped << SQL
SELECT printf('INSERT INTO report.kept SELECT ''$file'', %Q WHERE (SELECT count(*) FROM main."%w") > (SELECT count(*) FROM main."%w");',
    place, place, m.name) FROM report.plain AS p JOIN main.sqlite_schema AS m ON m.sql = p.before AND place IN (SELECT name FROM main.sqlite_schema);
SQL
    derive "$file" dumped << SQL
SELECT printf('DROP TABLE main."%w";', place) FROM report.plain WHERE before IN (SELECT sql FROM main.sqlite_schema)
    AND place IN (SELECT name FROM main.sqlite_schema) AND place NOT IN (SELECT place FROM report.kept WHERE file = '$file');
SQL
    lacking "$file" true
done

# SQLite opens no database of which the schema gives a virtual table another name than its definition does: the latter is the right one.
for file in replaced new; do
    run "$file" dumped << 'SQL'
UPDATE main.sqlite_schema AS s SET name = v.right, tbl_name = v.right FROM
    (SELECT rowid AS place, trim(substr(sql, 22, instr(upper(sql), ' USING') - 22), '"`[]'' ') AS right
        FROM main.sqlite_schema WHERE sql LIKE 'CREATE VIRTUAL TABLE % USING %') AS v
    WHERE v.place = s.rowid AND s.name <> v.right;
SQL
done

# 5. What each table has.
echo 'What could not be counted:' >&2
derive damaged new << SQL
SELECT printf('INSERT INTO report.whole SELECT %Q, rows FROM (SELECT count(*) AS rows, %s AS read FROM main."%w" NOT INDEXED) WHERE read >= 0;',
        l.name, $(each "printf('count(\"%w\" || '''')', name)" +), l.name)
    FROM $tables;
SQL
derive new dumped << SQL
SELECT printf('INSERT INTO report.rows SELECT %Q, count(*), %d FROM main."%w";', l.name,
        l.name GLOB 'lost_and_found*' AND l.name NOT IN $others, l.name)
    FROM $tables;
SQL
for file in replaced dumped; do
    derive new "$file" << SQL
SELECT printf('INSERT INTO report.others SELECT %Q, ''$file.db'', count(*) FROM (SELECT %s FROM other."%w" EXCEPT SELECT %s FROM main."%w");',
        l.name, key, l.name, key, l.name)
    FROM (SELECT l.name, $values || coalesce(', ' || $rowid, '') AS key FROM $tables) AS l
    WHERE l.name IN $others;
SQL
done
exec 2>&3
# shown: text as a terminal may have it, with ? for control characters, also those of two bytes.
shown() {
    LC_ALL=C tr '\000-\011\013-\037\177' '?' | LC_ALL=C sed "s/$(printf '\302')[$(printf '\200')-$(printf '\237')]/?/g"
}
sql report.db << 'SQL' | shown
SELECT printf('%s: %d row%s', replace(n.name, char(10), '?'), n.count, iif(n.count = 1, '', 's'))
    || coalesce((SELECT ' of table ' || replace(p.name, char(10), '?') || ', which does not take all of them' FROM plain AS p WHERE p.place = n.name),
        iif(lost, ' of pages that no table refers to',
        iif(n.count > coalesce(r.count, 0), printf(', %d more than .recover found', n.count - coalesce(r.count, 0)), '')
        || coalesce('; not among them: ' || (SELECT group_concat(printf('%d of %s', count, file), ', ')
            FROM others AS o WHERE o.name = n.name AND o.count > 0), '')
        || iif(w.name IS NULL, '; SQLite cannot read this table to its end',
            iif(w.count > n.count + coalesce((SELECT count FROM others AS o WHERE o.name = n.name AND file = 'dumped.db'), 0),
                printf('; SQLite reads %d row%s of it in the damaged file', w.count, iif(w.count = 1, '', 's')), ''))))
    FROM rows AS n LEFT JOIN recovered AS r USING (name) LEFT JOIN whole AS w USING (name) ORDER BY lost, n.name;
SQL
sql damaged.db 'PRAGMA writable_schema = ON; SELECT count(*) FROM sqlite_schema' > run.out 2>&1 ||
    echo 'SQLite cannot read the schema, so that .dump gave nothing'
[ ! -s recover.log ] || printf '.recover came to no end: %s\n' "$(cat recover.log)" | shown
cd "$before" || exit 2
mv "$work/new.db" "$new" || exit 2
for file in replaced.db dumped.db both-ways.log; do
    mv "$work/$file" "$beside/$file" || exit 2
done
[ -e "$work/all-written" ] || die "not all of $new, replaced.db and dumped.db could be written or counted: $beside/both-ways.log says why"
