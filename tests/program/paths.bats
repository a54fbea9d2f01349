#!/usr/bin/env bats
# Paths: a path of any length that the system takes is that of its file, and so is one with blanks at its ends.
load common

@test 'blanks at the ends of a name belong to it' {
    cp "$data/empty.db" "$work/ blank.db  "
    expect 0 $'ok\n' '' check "$work/ blank.db  "
    expect 0 "$picture"$'  blank.db  </title>\n*</svg>\n' '' map "$work/ blank.db  "
    expect 4 '' "dbck: note: $work/ blank.db: No such file or directory"$'\n'"$unread" check "$work/ blank.db"
}

@test 'a line feed or another blank at the end of a name belongs to it' {
    local end name
    for end in $'\n' $'\n\n' $'\r\n' $'\t' ' '; do
        name=$work/x.db$end
        cp "$data/whole.db" "$work/x.db"
        cp "$data/two-owners.db" "$name"
        exactly 1 "$twice$unused" '' check "$name"
        exactly 0 $'ok\n' '' check "$work/x.db"
        rm "$name"
        expect 4 '' "dbck: note: $work/x.db*: No such file or directory"$'\n'"$unread" check "$name"
        cp "$data/two-owners.db" "$name"
        rm "$work/x.db"
        expect 4 '' "dbck: note: $work/x.db: No such file or directory"$'\n'"$unread" check "$work/x.db"
        rm "$name"
    done
}

@test 'a mark at the beginning of a name and a blank without width at its end belong to it' {
    local name
    cp "$data/whole.db" "$work/x.db"
    cd "$work"
    for name in $'\xef\xbb\xbfx.db' $'x.db\xe2\x80\x8b'; do
        cp "$root/$data/two-owners.db" "$name"
        exactly 1 "$twice$unused" '' check "$name"
    done
}

# of_path NAME STATUS OUT ERR WORDS..: a row whose name says how long the path is.
of_path() {
    dbck "${@:5}"
    row "$1 of $length bytes" ended "$2" "$3" "$4"
}

@test 'a path of 300 bytes, and one of 4000, is that of its file' {
    local length path
    cp "$data/empty.db" "$work/long.db"
    for length in 300 4000; do
        path=$(printf '%*s' $(((length - ${#work} - 8) / 2)) '')
        path=$work/${path// /./}long.db
        of_path 'check --limit 7 of a path' 0 $'ok\n' '' check --limit 7 "$path"
        of_path 'explain of a path' 0 $'ok\n' '' explain "$path"
        of_path 'map of a path' 0 "$picture"$' long.db</title>\n*</svg>\n' '' map "$path"
        of_path 'stat of a path' 0 "$page" '' stat "$path"
        of_path 'no path' 4 '' "dbck: note: ${path%.db}: No such file or directory"$'\n'"$unread" check "${path%.db}"
    done
}

# A path is what it is: no suffix, scheme or end of it is guessed, and an empty word is a word.
@test 'no other file is opened than the one of the path, and no word is left out' {
    local command
    cp "$data/whole.db" "$work/x.db"
    cp "$data/whole.db" "$work/--"
    cd "$work" || return
    for command in "${five[@]}"; do
        exactly 4 '' $'dbck: note: x: No such file or directory\n'"$unread" "$command" x
        exactly 4 '' $'dbck: note: file:x.db: No such file or directory\n'"$unread" "$command" file:x.db
        exactly 4 '' $'dbck: note: x.db/: Not a directory\n'"$unread" "$command" x.db/
        dbck "$command" '' x.db
        row "dbck $command, an empty word and a path" ended 2 '' "dbck: unexpected argument 'x.db' found*"
    done
    exactly 0 $'ok\n' '' check -- --
    [ "$rows" = 21 ]
}
