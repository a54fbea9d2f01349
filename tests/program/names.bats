# Names of files, words of the command line and names of the schema, as they are shown: see docs/FAULTS.md, *Shown names*.
load common

# each_name COMMAND: runs a command for each row of names.txt, with $name, $shown and a path $file of that name, where nothing is yet.
each_name() {
    local name shown file
    while IFS='|' read -r name shown; do
        name=$(printf '%b.' "$name") && name=${name%.}
        [ "$shown" != = ] || shown=$name
        mkdir "$work/here"
        file=$work/here/$name
        "$1" || fail "of the name $(printf %q "$name")" || return
        rm -rf "$work/here"
    done < <(grep -v '^#' "$root/tests/program/names.txt")
}

# harmless FILE..: no line has a control character, one that turns text around, or one that is none.
harmless() {
    if LC_ALL=C grep -nP '[\x00-\x09\x0b-\x1f\x7f]|\xc2[\x80-\x9f]|\xe2\x80[\xaa-\xae]|\xe2\x81[\xa6-\xa9]|\xef\xbf[\xbe\xbf]' "$@" > "$work/why"; then
        fail "a control character: $(show "$work/why")"
    fi
}

# noted STATUS TEXT: each command writes this alone of $file, with the shown path for each `@`.
noted() {
    local command
    for command in "${five[@]}"; do
        exactly "$1" '' "${2//@/"$work/here/$shown"}" "$command" -- "$file" || return
        harmless "$work/err" || return
    done
}

@test 'the name of a missing file is shown in its note' {
    missing() {
        noted 4 $'dbck: note: @: No such file or directory\n'"$unread"
    }
    each_name missing
}

@test 'a relative path is shown as it is given' {
    here() {
        cd "$work/here" || return
        exactly 4 '' "dbck: note: $shown: No such file or directory"$'\n'"$unread" check -- "$name" || return
        exactly 4 '' "dbck: note: $shown/../$shown: No such file or directory"$'\n'"$unread" map -- "$name/../$name" || return
        cd "$root" || return
    }
    each_name here
}

# A control character is shown by four.
@test 'a path that is shown by four times its bytes is shown as a whole' {
    local command count deep file name notes shown
    name=$(printf '%200s' '' | tr ' ' '\001')
    for count in 6 18; do
        deep=
        while [ "${#deep}" -lt $((201 * count)) ]; do deep+=/$name; done
        file=$work$deep shown=$work${deep//$'\001'/\\x01}
        for command in "${five[@]}"; do
            exactly 4 '' "dbck: note: $shown: No such file or directory"$'\n'"$unread" "$command" "$file"
        done
        mkdir -p "$file" 2> "$work/why" || skip "no such path here: $(cat "$work/why")"
        : > "$file/x.db"
        notes="dbck: note: $shown/x.db is not checked"$'\n'"dbck: note: $shown/x.db has no bytes; to SQLite it is an empty database"
        exactly 3 '' "$notes"$'\ndbck: E1 file is shorter than 100 bytes\n' check "$file/x.db"
        rm -r "${work:?}/$name"
    done
    [ "$rows" = 12 ]
}

@test 'the name of a refused file is shown in each note' {
    refused() {
        : > "$file"
        noted 3 $'dbck: note: @ is not checked\ndbck: note: @ has no bytes; to SQLite it is an empty database\ndbck: E1 file is shorter than 100 bytes\n' || return
        head -c 100 /dev/zero > "$file"
        noted 3 $'dbck: note: @ is not checked\ndbck: note: @ begins with zeros\ndbck: E2 file is not a SQLite 3 database\n' || return
        printf 'data: \e[2J\n\u009b0' | cat - /dev/zero | head -c 512 > "$file"
        noted 3 $'dbck: note: @ is not checked\ndbck: note: @ begins with 64 61 74 61 3a 20 1b 5b 32 4a 0a c2 9b 30 00 00  data: .[2J...0..\ndbck: E2 file is not a SQLite 3 database\n'
    }
    each_name refused
}

@test 'the name of what is not read is shown in its note' {
    unread() {
        mkdir "$file"
        noted 4 $'dbck: note: @: a directory\n'"$unread" || return
        rmdir "$file"
        mkfifo "$file"
        noted 4 $'dbck: note: @: not a regular file: unpack it first\n'"$unread" || return
        rm "$file"
        ln -s -- "$name" "$file"
        noted 4 $'dbck: note: @: Too many levels of symbolic links\n'"$unread"
    }
    each_name unread
}

@test 'the name of a file that may not be read is shown in its note' {
    to_be_nobody
    closed() {
        cp "$data/empty.db" "$file"
        chmod 000 "$file"
        noted 4 $'dbck: note: @: Permission denied\n'"$unread"
    }
    each_name closed
}

@test 'the name of a file of which a read fails is shown in its note' {
    # It says that it has 4096 bytes, and has fewer.
    lying=/sys/devices/system/cpu/online
    [ -f "$lying" ] || skip "there is no $lying"
    lies() {
        ln -s "$lying" "$file"
        noted 4 $'dbck: note: @: the 100 bytes at 0 cannot be read\n'"$unread"
    }
    each_name lies
}

@test 'the name of a file without a known length is shown in its note' {
    # The memory of a process is a regular file whose end cannot be found.
    [ -f /proc/self/mem ] || skip 'there is no /proc/self/mem'
    endless() {
        ln -s /proc/self/mem "$file"
        noted 4 $'dbck: note: @: its length is not known\n'"$unread"
    }
    each_name endless
}

@test 'the names of logs are shown in their notes, also of a link by its target' {
    logged() {
        cp "$data/empty.db" "$file"
        echo log > "$file-wal"
        echo log > "$file-journal"
        ln -s -- "./$name" "$work/here/link.db"
        log_notes "$work/here/$shown"
        exactly 0 $'ok\n' "$wal$journal" check -- "$file" || return
        exactly 0 $'ok\n' "$wal$journal" explain -- "$work/here/link.db" || return
        exactly 0 "$page" "$wal$journal" stat -- "$file" || return
        expect 0 "$picture*</svg>"$'\n' "*" map -- "$file" || return
        harmless "$work/err" || return
        printf %s "$wal$journal" | cmp - "$work/err"
    }
    each_name logged
}

@test 'the names of logs that are read are shown in their notes' {
    needs python3
    read_logs() {
        cp "$data/empty.db" "$file"
        echo log > "$file-wal"
        journal_of "$file" <<< 1
        exactly 0 $'ok\n' "dbck: note: $work/here/$shown-journal: 1 page is read from it; the database had 1 page"$'\n'\
"dbck: note: $work/here/$shown-wal holds nothing that SQLite would read"$'\n' check --recovered -- "$file" || return
        harmless "$work/err"
    }
    each_name read_logs
}

@test 'the name of a file that is written while it is read is shown in its note' {
    changing() {
        cp "$data/empty.db" "$file"
        log_notes "$work/here/$shown"
        note=$(changed_note "$work/here/$shown")
        # shellcheck disable=SC2016
        at_first_note 'touch -d "2001-01-01 00:00:00.1" "$file"' check -- "$file" || return
        ended_exactly 0 $'ok\n' "$wal${note%.}" || return
        harmless "$work/err"
    }
    each_name changing
}

@test 'a folder has its shown name in the notes' {
    folder() {
        mkdir "$file"
        : > "$file/x.db"
        exactly 3 '' "dbck: note: $work/here/$shown/x.db is not checked"$'\n'"dbck: note: $work/here/$shown/x.db has no bytes; to SQLite it is an empty database"$'\ndbck: E1 file is shorter than 100 bytes\n' \
            check "$file/x.db"
    }
    each_name folder
}

@test 'a picture has the shown name as its title, its label and its heading' {
    needs python3
    pictured() {
        cp "$data/empty.db" "$file"
        dbck map -- "$file"
        ended 0 '*' '' || return
        harmless "$work/out" || return
        python3 - "$work/out" "$shown" << 'END'
import sys
import xml.etree.ElementTree as tree

svg = "{http://www.w3.org/2000/svg}"
picture, wanted = tree.parse(sys.argv[1]).getroot(), sys.argv[2]
found = [picture.find(svg + "title").text, picture.get("aria-label")]
texts = ["".join(text.itertext()) for text in picture.iter(svg + "text")]
if found != ["Pages of " + wanted] * 2 or not any(text.startswith(wanted) for text in texts):
    sys.exit(f"{found!r} and {texts!r}")
END
    }
    each_name pictured
}

@test 'words that are refused are shown' {
    # begins TEXT: standard error begins with a text, whatever that has.
    begins() {
        printf '%s' "$1" | cmp -s - <(head -c "$(printf '%s' "$1" | wc -c)" "$work/err") || fail "wanted $(printf %q "$1"), not $(show "$work/err")" || return
        [ "$status" = 2 ] && [ ! -s "$work/out" ] && harmless "$work/err"
    }
    refused() {
        dbck check x "./$name"
        begins "dbck: unexpected argument './$shown' found" || return
        dbck "a$name"
        begins "dbck: unrecognized subcommand 'a$shown'" || return
        dbck check --limit "a$name" x
        begins "dbck: invalid value 'a$shown' for '--limit <N>'" || return
        dbck check "--limit=a$name" x
        begins "dbck: invalid value 'a$shown' for '--limit <N>'" || return
        dbck stat "--all=a$name" x
        begins "dbck: unexpected value 'a$shown' for '--all' found; no more were expected" || return
        dbck map "--x$name" x
        [ "$status" = 2 ] && [ ! -s "$work/out" ] && harmless "$work/err"
    }
    each_name refused
}

@test 'a word that is not UTF-8 is refused, and nothing of it shown' {
    for bytes in '\xff' 'x\xc3' '\xc0\xaf' '\xed\xa0\x80' '\xf4\x90\x80\x80' 'x\x9b2J' '\xe2\x80'; do
        word=$(printf '%b' "$bytes")
        cp "$data/empty.db" "$work/$word"
        for command in "${five[@]}"; do
            exactly 2 '' $'dbck: word 2 of the command line is not UTF-8\n' "$command" "$work/$word"
        done
        exactly 2 '' $'dbck: word 1 of the command line is not UTF-8\n' "$word"
    done
}

@test 'names of the schema are shown in lines, summaries and pictures' {
    needs sqlite3
    tables() {
        # A table whose root page is overwritten by zeros.
        printf 'PRAGMA page_size = 512; CREATE TABLE "%s" (a);' "${name//\"/\"\"}" | sqlite3 "$work/here/t.db"
        dd if=/dev/zero of="$work/here/t.db" bs=512 seek=1 count=1 conv=notrunc status=none
        dbck explain "$work/here/t.db"
        harmless "$work/out" || return
        grep -qxF "    page 2 at byte 512: root of table $shown" "$work/out" || differs "$shown" || return
        grep -qxF "    1 in table $shown (root page 2), on 1 of its 1 page" "$work/out" || differs "$shown" || return
        dbck map "$work/here/t.db"
        harmless "$work/out" || return
        [ "$status" = 1 ]
    }
    each_name tables
}
