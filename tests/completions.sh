#!/usr/bin/env bash
# Compares the words of the completions with the help of the program: completions.sh DBCK. It names each word that is missing
# or too many, and its status is 0 where there is none.
set -u
dbck=$(realpath "${1:?give the program}")
cd "$(dirname "$0")/../completions" || exit
work=$(mktemp -d)
trap 'rm -rf "$work"' EXIT
status=0

# long: the long options in a text, a line each.
long() {
    grep -oE -- '--[a-z][a-z-]*' | LC_ALL=C sort -u
}

# compare NAME: says in what the words of a completion differ from those of the help.
compare() {
    if ! diff "$work/help" "$work/words" > "$work/diff"; then
        echo "$1:"
        grep '^[<>]' "$work/diff"
        status=1
    fi
}

for command in check explain map mend stat; do
    "$dbck" "$command" --help | long > "$work/help"
    # shellcheck disable=SC1091
    words=$(
        . ./dbck.bash
        COMP_WORDS=(dbck "$command" --) COMP_CWORD=2
        _dbck
        printf '%s\n' "${COMPREPLY[@]}"
    )
    printf '%s\n' "$words" | long > "$work/words"
    compare "dbck.bash: $command"
    sed -n "/^        $command)\$/,/;;/p" _dbck | long > "$work/words"
    compare "_dbck: $command"
    { sed -n "/seen_subcommand_from $command'/s/.*-l \([a-z-]*\).*/--\1/p" dbck.fish; echo --help; } | LC_ALL=C sort -u > "$work/words"
    compare "dbck.fish: $command"
done
"$dbck" --help | sed -n '/^Commands:/,/^$/s/^  \([a-z]*\) .*/\1/p' | LC_ALL=C sort > "$work/help"
for file in dbck.bash _dbck dbck.fish; do
    : > "$work/words"
    for word in check explain map mend stat help; do
        grep -q -- "$word" "$file" && echo "$word" >> "$work/words"
    done
    LC_ALL=C sort -o "$work/words" "$work/words"
    compare "$file: commands"
done

# After help the other commands are offered.
sed -i '/^help$/d' "$work/help"
(
    # shellcheck disable=SC1091
    . ./dbck.bash
    COMP_WORDS=(dbck help '') COMP_CWORD=2
    _dbck
    printf '%s\n' "${COMPREPLY[@]}"
) | LC_ALL=C sort > "$work/words"
compare 'dbck.bash: help'
sed -n '/^ *help) /s/.*(\([a-z ]*\)).*/\1/p' _dbck | tr ' ' '\n' | LC_ALL=C sort > "$work/words"
compare '_dbck: help'
sed -n "/seen_subcommand_from help'/s/.* -a '\([a-z ]*\)'.*/\1/p" dbck.fish | tr ' ' '\n' | LC_ALL=C sort > "$work/words"
compare 'dbck.fish: help'

# After -- only files are offered: also one whose name begins with a dash. Before it that one is offered with its folder. A name may end in
# any way, and comes after options and their values, too: bash splits those at each =.
mkdir "$work/files"
: > "$work/files/--limit.db"
: > "$work/files/x-y.db"
: > "$work/files/x.sqlite"
words=$(
    . ./dbck.bash
    cd "$work/files" || exit
    for command in check explain map mend stat; do
        COMP_WORDS=(dbck "$command" -- --) COMP_CWORD=3
        _dbck
        printf '%s\n' "$command: ${COMPREPLY[*]}"
        COMP_WORDS=(dbck "$command" '') COMP_CWORD=2
        _dbck
        printf '%s\n' "$command:" "${COMPREPLY[@]}" | LC_ALL=C sort
        COMP_WORDS=(dbck "$command" --with 5 '=' 00 '') COMP_CWORD=6
        _dbck
        printf '%s\n' "$command:" "${COMPREPLY[@]}" | LC_ALL=C sort
    done
)
for command in check explain map mend stat; do
    printf '%s\n' "$command: --limit.db"
    printf '%s\n' ./--limit.db "$command:" x-y.db x.sqlite ./--limit.db "$command:" x-y.db x.sqlite
done > "$work/help"
echo "$words" > "$work/words"
compare 'dbck.bash: files'
exit $status
