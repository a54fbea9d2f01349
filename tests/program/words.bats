#!/usr/bin/env bats
# The words of the command line: their order, and those that are refused.
load common

@test 'options may come before the file and after it' {
    expect 1 "$twice$unused" '' check --limit +7 "$data/two-owners.db"
    expect 1 "$twice$unused" '' check --no-progress "$data/two-owners.db"
    expect 0 "$tree" '' stat "$data/empty.db" --aggregate --no-progress --all
}

@test 'after -- a word is a file, whatever it looks like' {
    for command in "${five[@]}"; do
        expect 4 '' $'dbck: note: --all: No such file or directory\n'"$unread" "$command" -- --all
    done
    cp "$data/empty.db" "$work/-x"
    cd "$work" || return
    expect 0 $'ok\n' '' check -- -x
    expect 0 "$picture"$' -x</title>\n*</svg>\n' '' map --no-progress -- -x
}

@test 'of a wrong command line only standard error says why, and the status is 2' {
    while IFS='|' read -r words text; do
        # shellcheck disable=SC2086
        expect 2 '' "dbck: $text*" $words
    done < <(table wrong-words)
    [ "$rows" = 26 ]
}

@test 'what is wrong with the words is said to its end' {
    local more=$'\n\nFor more information, try \'--help\'.\n'
    exactly 2 '' $'dbck: the following required arguments were not provided:\n  <FILE>\n\nUsage: dbck check <FILE>'"$more" check
    exactly 2 '' $'dbck: unexpected argument \'--limt\' found\n\n  tip: a similar argument exists: \'--limit\'\n\nUsage: dbck check --limit <N> <FILE>'"$more" check --limt 3 x
    exactly 2 '' $'dbck: unrecognized subcommand \'chek\'\n\n  tip: a similar subcommand exists: \'check\'\n\nUsage: dbck <COMMAND>'"$more" chek x
    # Also of a word that has no letter, or very many.
    expect 2 '' $'dbck: unexpected argument \'\' found\n*' check "$data/whole.db" ''
    expect 2 '' "dbck: unrecognized subcommand '$(printf '%05000d' 0)'"$'\n*' "$(printf '%05000d' 0)"
}

@test 'a word that is refused is shown without control characters' {
    local words
    expect 2 '' $'dbck: word 2 of the command line is not UTF-8\n' check $'\xff'
    expect 2 '' $'dbck: word 4 of the command line is not UTF-8\n' check --limit 1 $'x\xff' $'\xff'
    expect 2 '' $'dbck: word 2 of the command line is not UTF-8\n' check "$(printf '%0100000d\xff' 0)"
    mapfile -t words < <(seq 1500)
    dbck check "${words[@]}" $'\xff'
    row 'a word after 1500 others' ended_exactly 2 '' $'dbck: word 1502 of the command line is not UTF-8\n'
    expect 2 '' "dbck: unexpected argument 'y\\\\x1b\\[2J\\\\x0az' found"$'\n*' check x $'y\x1b[2J\nz'
    expect 2 '' "dbck: unrecognized subcommand 'a\\\\x0ab\\\\xc2\\\\x9b'"$'\n*' $'a\nb\xc2\x9b'
    expect 2 '' "dbck: invalid value '5\\\\x0a' for '--limit <N>'*" check --limit $'5\n' x
}

@test 'the completions offer the words of the help' {
    row 'the words of the completions' tests/completions.sh "$DBCK"
}

# typed LINE: bash gets a line on a terminal, where a tabulator completes a word. It stands in $work/files, and its dbck says each of its words
# in < and >, which is then the file out.
typed() {
    timeout 60 python3 - "$root/completions/dbck.bash" "$work/files" "$1" > "$work/out" << 'END'
import os, pty, sys

script, folder, line = sys.argv[1:]
pid, terminal = pty.fork()
if pid == 0:
    os.chdir(folder)
    os.environ.update(PS1="ready> ", INPUTRC="/dev/null", HISTFILE="", TERM="dumb")
    os.execvp("bash", ["bash", "--norc", "--noprofile", "-i"])


def until_ready():
    text = b""
    while not text.endswith(b"ready> "):
        text += os.read(terminal, 4096)
    return text


until_ready()
os.write(terminal, b"dbck() { printf '<%s>' \"$@\"; echo; }; bind 'set enable-bracketed-paste off'; . '" + os.fsencode(script) + b"'\n")
until_ready()
os.write(terminal, os.fsencode(line) + b"\n")
said = until_ready().decode().splitlines()
os.close(terminal)
print(*(text for text in said if text.startswith("<")), sep="\n")
END
}

# completes LINE WORDS: of the completed line dbck says these words.
completes() {
    typed "$1" && [ "$(< "$work/out")" = "$2" ]
}

@test 'bash completes commands, options, and the name of a file with a blank, which stays one word' {
    needs python3
    needs_terminal
    mkdir "$work/files" "$work/files/many files"
    : > "$work/files/one file.db"
    : > "$work/files/many files/x.db"
    row 'a command' completes $'dbck ex\t' '<explain>'
    row 'the version' completes $'dbck --v\t' '<--version>'
    row 'a command after help' completes $'dbck help ma\t' '<help><map>'
    row 'an option' completes $'dbck map --no\t' '<map><--no-progress>'
    row 'a file' completes $'dbck check on\t' '<check><one file.db>'
    row 'a file after an option' completes $'dbck check --limit 3 on\t' '<check><--limit><3><one file.db>'
    row 'a file in a folder' completes $'dbck check ma\tx\t' '<check><many files/x.db>'
    row 'a file after --' completes $'dbck check -- on\t' '<check><--><one file.db>'
}

@test 'bash completes a file whose name begins with a dash so that it is no option' {
    needs python3
    needs_terminal
    mkdir "$work/files"
    : > "$work/files/-x.db"
    row 'a file' completes $'dbck check \t' '<check><./-x.db>'
    row 'a file after an option' completes $'dbck check --no-progress \t' '<check><--no-progress><./-x.db>'
    row 'a file after --' completes $'dbck check -- \t' '<check><--><-x.db>'
    # What these take is no file, but after -- they are files.
    row 'nothing after --limit' completes $'dbck check --limit \t' '<check><--limit>'
    row 'nothing after --with' completes $'dbck check --with \t' '<check><--with>'
    row 'a file after -- and a file of the name --limit' completes $'dbck check -- --limit \t' '<check><--><--limit><-x.db>'
    row 'an option' completes $'dbck map --no\t' '<map><--no-progress>'
}
