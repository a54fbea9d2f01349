#!/usr/bin/env bats
# Help and the version, on standard output alone.
load common

# is_help TEXT: the last run has written the text of a file, byte for byte.
is_help() {
    [ "$status" = 0 ] && [ ! -s "$work/err" ] && diff "$1" "$work/out"
}

@test 'each form of help writes its text, byte for byte' {
    while read -r text words; do
        # shellcheck disable=SC2086
        dbck $words
        row "$words" is_help "tests/help/$text.txt"
    done << 'END'
dbck --help
dbck -h
dbck help
check check --help
check help check
explain explain --help
explain help explain
map map --help
map help map
mend mend --help
mend help mend
stat stat --help
stat help stat
END
}

@test 'the version is one line, and that of the newest changes' {
    local line
    line=$(sed -n 's/^## \([0-9.]*\).*/dbck \1/p' CHANGELOG.md | head -n 1)
    exactly 0 "$line"$'\n' '' --version
    exactly 0 "$line"$'\n' '' -V
}
