#!/usr/bin/env bash
# Sets dbck beside SQLite: beside_sqlite.sh [--list FILE] DBCK FOLDER. Of each file of the folder it takes the verdict of `dbck
# check`, and those of `PRAGMA integrity_check` and `PRAGMA quick_check` by the sqlite3 program: each in a process of its own, which
# gets ten seconds of processor time, over a copy that nobody may write, opened as one that does not change. It prints how many
# files are in each class. --list writes a line for each file: its class, what dbck says, what integrity_check says, what
# quick_check says, and its name. docs/SQLITE.md says what the classes and the words mean.
set -u
list=
if [ "${1:-}" = --list ]; then
    list=$(realpath "${2:?give a file for the list}")
    shift 2
fi
dbck=$(realpath "${1:?give the program and a folder}")
folder=$(realpath "${2:?give a folder}")
seconds=10
work=$(mktemp -d)
: "${list:=$work/list}"
trap 'chmod -R u+w "$work"; rm -rf "$work"' EXIT

# kind LINE: adds the kind of a line that SQLite writes to the kinds of a file. A line that only leads others has none.
kind() {
    case $1 in
        ok | '' | '*** in database main ***') ;;
        'Main freelist: '* | 'Page '* | 'On page '* | 'On tree page '* | 'Pointer map page '* | 'Multiple uses for byte '* | \
            'Fragmentation of '* | 'max rootpage '* | 'incremental_vacuum '* | 'Bad ptr map entry '* | 'Failed to read ptrmap '* | \
            '2nd reference to page '* | 'invalid page number '* | 'failed to get page '*) kinds[structure]=1 ;;
        'row '*' missing from index '* | 'wrong # of entries in index '* | 'non-unique entry in index '* | \
            'row not in PRIMARY KEY order for '*) kinds[index]=1 ;;
        'NULL value in '* | 'NUMERIC value in '* | 'TEXT value in '* | 'non-'*' value in '* | 'CHECK constraint failed in '*)
            kinds[value]=1 ;;
        'Error: in prepare, malformed database schema'*) kinds[schema]=1 ;;
        'Error: in prepare, file is not a database'*) kinds[refused]=1 ;;
        'Error: in prepare, database disk image is malformed'*) kinds[unopened]=1 ;;
        'Error: in prepare, unsupported file format'*) kinds[format]=1 ;;
        'Error: stepping, database disk image is malformed'* | 'database disk image is malformed') kinds[record]=1 ;;
        *) kinds[other]=1 ;;
    esac
}

# limited WORDS..: runs a program over the copy within the limits, with its outputs in the files `out` and `err`.
limited() {
    (
        ulimit -t "$seconds"
        exec "$@"
    ) > "$work/out" 2> "$work/err" < /dev/null
}

# sqlite SQL: runs SQLite over the copy, and fails where it was stopped.
sqlite() {
    local name=${copy//%/%25}
    name=${name//\?/%3f}
    limited sqlite3 -batch -init /dev/null "file:${name//#/%23}?immutable=1" "$1" 2> /dev/null
    [ $? -lt 128 ]
}

# look_further: whether SQLite finds structure damaged in a file whose schema it cannot parse, where it passes over rows of the schema
# that it does not understand. Pages that only those rows name seem unused then, and the greatest root may be one of them.
look_further() {
    local line lines
    local -A kinds=()
    sqlite 'PRAGMA writable_schema = ON; PRAGMA integrity_check;' || return
    mapfile -t lines < "$work/out"
    for line in "${lines[@]}"; do
        [[ $line == 'Page '*' is never used' || $line == 'max rootpage '* ]] || kind "$line"
    done
    [ -n "${kinds[structure]:-}" ]
}

# ask PRAGMA: what SQLite says of the copy goes to `said`: `ok`, or the kinds of its lines, or `stopped`.
ask() {
    local word line lines error
    local -A kinds=()
    said=stopped
    sqlite "PRAGMA $1" || return
    mapfile -t lines < "$work/out"
    IFS= read -r -d '' error < "$work/err"
    for line in "${lines[@]}" "$error"; do
        kind "$line"
    done
    if [ -n "${kinds[schema]:-}" ] && look_further; then
        kinds[structure]=1
    fi
    said=
    for word in structure unopened refused format schema record index value other; do
        [ -z "${kinds[$word]:-}" ] || said+=${said:+ }$word
    done
    : "${said:=${lines[0]:-nothing}}"
}

# check: what dbck says of the copy goes to `said`: `ok`, the codes of its faults, or that of its error.
check() {
    local code error
    local -A codes=()
    limited "$dbck" check --limit 1000000 "$copy"
    case $? in
        0) read -r said < "$work/out" ;;
        1)
            while read -r code _; do
                codes[$code]=1
            done < "$work/out"
            said=
            for code in {H0,H1,P0,P1,R0,T0,O0,L0,S0,N0,M0}{0..9} more; do
                [ -z "${codes[$code]:-}" ] || said+=${said:+ }$code
            done
            ;;
        3)
            IFS= read -r -d '' error < "$work/err"
            said=${error##*dbck: E}
            said=E${said%% *}
            ;;
        *) said=failed ;;
    esac
}

# classify: the class of a file, of `ours` and `theirs`, goes to `class`.
classify() {
    case $ours,$theirs in
        failed,*) class='dbck failed' ;;
        *,stopped) class='SQLite was stopped' ;;
        E*,*) class='refused by dbck' ;;
        ok,ok) class='both find no fault' ;;
        ok,*) class='faults by SQLite alone' ;;
        *,ok) class='faults by dbck alone' ;;
        *) class='both find faults' ;;
    esac
}

# table: the lines of all files, counted. What dbck says is part of a row where SQLite does not bear it out. Of the kinds of SQLite's
# lines a row has the first, and `schema` after `structure`. The rows come by their class, which what both say gives away.
table() {
    awk -F '\t' '
        { codes = $1 == "faults by dbck alone" || $1 == "refused by dbck" || $1 == "SQLite was stopped"
          split($3, kinds, " ")
          kind = $3 ~ /^structure schema/ ? "structure schema" : kinds[1]
          row = "| " $1 " | " (codes || $2 == "ok" ? $2 : "faults") " | " kind " | "
          files[row]++ }
        END { for (row in files) print row files[row] " |" }' "$list" | LC_ALL=C sort | cut -d '|' -f 1,3-
}

cp -r "$folder" "$work/files"
chmod -R a-w "$work/files"
cd "$work/files" || exit
find . -type f | LC_ALL=C sort | while IFS= read -r copy; do
    check
    ours=$said
    ask integrity_check
    theirs=$said
    ask quick_check
    classify
    printf '%s\t%s\t%s\t%s\t%s\n' "$class" "$ours" "$theirs" "$said" "${copy#./}"
done > "$list"
echo "$("$dbck" --version), SQLite $(sqlite3 --version | cut -d ' ' -f 1), $(wc -l < "$list") files"
echo
# shellcheck disable=SC2016
echo '| `dbck` | `integrity_check` | Files |'
echo '|---|---|---|'
table
