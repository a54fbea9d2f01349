# Which file is opened, and how: the one that is named, for reading alone.
load common

@test 'no file is taken but the one that is named' {
    mkdir "$work/here"
    cd "$work/here"
    # Neighbours of x, each sound, and none is x.
    for name in x.db x.sqlite x.sqlite3 X x.DB .x x~ 'x ' ' x' '"x"' "'x'" x1 xx x.x './-x' 'file:x' 'x?mode=ro' '~' '%78' '?' '*' x-wal x-journal; do
        cp "$root/$data/empty.db" "$name"
    done
    for name in x ./x "$work/here/x" 'file:y' '%79' '[x]' "\$x" 'x.' x.s '~/x' here/x X/x; do
        for command in "${five[@]}"; do
            reason='No such file or directory'
            [[ $name != [~X]/x ]] || reason='Not a directory'
            exactly 4 '' "dbck: note: $name: $reason"$'\n'"$unread" "$command" "$name"
        done
    done
    # A log of the same name is a note of x alone.
    cp "$root/$data/two-owners.db" x
    rm x-wal x-journal
    for name in x ./x "$work/here/x" ../here/x .//x "$work/../${work##*/}/here/x"; do
        exactly 1 "$twice$unused" '' check "$name"
    done
    for name in x.db x.sqlite X 'x ' ' x' 'file:x' 'x?mode=ro' '~' '%78' '*' '"x"'; do
        exactly 0 "$page" '' stat "$name"
    done
}

@test 'the name of a log, or of a resource, is no other name of the database' {
    local name
    cp "$data/whole.db" "$work/x.db"
    for name in "$work/x.db-wal" "$work/x.db-journal" "file://$work/x.db" "file:$work/x.db" "file://localhost$work/x.db"; do
        exactly 4 '' "dbck: note: $name: No such file or directory"$'\n'"$unread" check "$name"
        exactly 4 '' "dbck: note: $name: No such file or directory"$'\n'"$unread" check --recovered "$name"
    done
}

@test 'a file of which another is a part of the name is no other' {
    cp "$data/empty.db" "$work/sound"
    cp "$data/two-owners.db" "$work/soundx"
    cp "$data/view-last.db" "$work/soun"
    exactly 0 $'ok\n' '' check "$work/sound"
    exactly 1 "$twice$unused" '' check "$work/soundx"
    expect 1 'H10 *' '' check "$work/soun"
    exactly 4 '' "dbck: note: $work/sound/: Not a directory"$'\n'"$unread" check "$work/sound/"
}

# state FOLDER: what is known of each file of a folder, its times but that of the last access, and its bytes.
state() {
    (cd "$1" && find . -printf '%p %i %s %m %u %g %n %y %T@ %C@ %l\n' | sort && find . -type f -exec sha256sum {} +)
}

@test 'a name that leaves a folder again is followed as the system follows it' {
    mkdir -p "$work/a" "$work/b/c"
    cp "$data/whole.db" "$work/a/x.db"
    cp "$data/two-owners.db" "$work/b/x.db"
    ln -s ../b/c "$work/a/to"
    exactly 1 "$twice$unused" '' check "$work/a/to/../x.db"
    exactly 1 "$twice$unused" '' check --recovered "$work/a/to/../x.db"
    cd "$work/a"
    exactly 1 "$twice$unused" '' check to/../x.db
    cd "$root"
    echo log > "$work/b/x.db-wal"
    exactly 1 "$twice$unused" "dbck: note: $work/a/to/../x.db-wal holds nothing that SQLite would read"$'\n' check --recovered "$work/a/to/../x.db"
}

@test 'the file and its folder are left as they are' {
    mkdir "$work/here"
    cp -p "$data/whole.db" "$work/here/sound.db"
    cp -p "$data/two-owners.db" "$work/here/faults.db"
    cp tests/slow.py "$work/here/refused.db"
    : > "$work/here/none.db"
    echo log > "$work/here/sound.db-wal"
    echo log > "$work/here/faults.db-journal"
    ln -s sound.db "$work/here/link.db"
    mkfifo "$work/here/pipe.db"
    chmod 640 "$work/here/sound.db"
    state "$work/here" > "$work/before"
    cd "$work/here"
    export HOME=$work/here TMPDIR=$work/here
    for name in sound.db faults.db refused.db none.db link.db pipe.db missing.db .; do
        for words in check 'check --limit 1' explain map mend stat 'stat --all --aggregate'; do
            # shellcheck disable=SC2086
            dbck $words "$work/here/$name"
            [ "$status" -lt 5 ]
        done
    done
    state "$work/here" > "$work/after"
    diff "$work/before" "$work/after"
}

@test 'a file that may only be read, in a folder that may only be read, is read' {
    to_be_nobody
    mkdir "$work/here"
    cp "$data/whole.db" "$work/here/x.db"
    cp "$data/two-owners.db" "$work/here/y.db"
    chmod 444 "$work/here"/*.db
    chmod 555 "$work/here"
    exactly 0 $'ok\n' '' check "$work/here/x.db"
    exactly 0 $'ok\n' '' explain "$work/here/x.db"
    expect 0 "$picture x.db</title>*</svg>"$'\n' '' map "$work/here/x.db"
    expect 0 $'sqlite_schema\t/\t1\t*' '' stat "$work/here/x.db"
    exactly 1 "$twice$unused" '' check "$work/here/y.db"
    chmod 755 "$work/here"
    [ "$(find "$work/here" -type f | sort | xargs)" = "$work/here/x.db $work/here/y.db" ]
}

@test 'while it is read the file alone is open, for reading, and no lock is held' {
    [ -r /proc/self/fdinfo/0 ] || skip 'there is no /proc/self/fdinfo'
    cp "$data/whole.db" "$work/x.db"
    # seen: writes what the program has open beside what this shell has, each with the last digit of its flags, and its locks.
    seen() {
        local link here
        for link in "/proc/$pid/fd"/*; do
            here=/proc/$BASHPID/fd/${link##*/}
            [ "${link##*/}" -gt 2 ] || continue
            [ ! "$link" -ef "$here" ] || continue
            echo "$(readlink "$link") $(sed -n 's/^flags:.*\(.\)$/\1/p' "/proc/$pid/fdinfo/${link##*/}")"
        done > "$work/open"
        grep -E "^[0-9]+: .* $pid " /proc/locks > "$work/locks" || true
    }
    for command in "${five[@]}"; do
        at_first_note seen "$command" "$work/x.db"
        [ "$status" = 0 ]
        # 0 is reading alone.
        [ "$(cat "$work/open")" = "$(realpath "$work/x.db") 0" ] || fail "open: $(show "$work/open")"
        [ ! -s "$work/locks" ] || fail "locks: $(show "$work/locks")"
    done
}

@test 'no lock is held while its pages are read' {
    [ -r /proc/locks ] || skip 'there is no /proc/locks'
    row_of 20000 512 "$work/x.db"
    locks() { grep -F ":$(stat -c %i "$work/x.db") " /proc/locks > "$work/locks" || true; }
    meanwhile "$work/x.db" locks
    [ "$status" = 0 ]
    [ ! -s "$work/locks" ] || fail "locks: $(show "$work/locks")"
}

@test 'the file is opened once, for reading, and its logs with --recovered, and nothing else' {
    local command
    needs python3
    paired
    mkdir -p "$work/here/.cache" "$work/here/.config" "$work/here/.local/share" "$work/here/.local/state"
    export HOME=$work/here
    on_disk "OPENED=$work/opened"
    for command in "${five[@]}"; do
        rm -f "$work/opened"
        dbck "$command" "$work/pair.db"
        row "what $command opens" diff "$work/opened" - <<< "reading $work/pair.db"
        rm -f "$work/opened"
        dbck "$command" --recovered "$work/pair.db"
        row "what $command opens with --recovered" diff "$work/opened" - <<< "reading $work/pair.db"$'\n'"reading $work/pair.db-wal"
    done
    [ -z "$(find "$work/here" -type f)" ]
}

@test 'the program calls these functions of the system, and no other' {
    needs nm
    nm -D --undefined-only "$DBCK" > "$work/names"
    ! grep -q __sanitizer "$work/names" || skip 'it is built without its proof'
    # A name that begins with an underscore belongs to the start or the end of a program.
    awk '{ sub(/@.*/, "", $NF); if ($NF !~ /^_/) print $NF }' "$work/names" | sort > "$work/called"
    printf '%s\n' clock_gettime close free isatty lseek malloc memcpy memmove memset open pread realloc realpath statx write | comm -13 - "$work/called" > "$work/more"
    [ ! -s "$work/more" ] || fail "it also calls $(show "$work/more")"
}

@test 'nothing is read from standard input' {
    for command in "${five[@]}"; do
        [ "$(printf 'one\ntwo\n' | { "$DBCK" "$command" "$data/whole.db" > "$work/out"; cat; })" = $'one\ntwo' ]
    done
}

@test 'SQLite may write to the file while it is read' {
    needs sqlite3
    sqlite3 "$work/x.db" 'CREATE TABLE t (a); INSERT INTO t VALUES (1);'
    at_first_note 'rm "$work/x.db-wal"; sqlite3 "$work/x.db" "INSERT INTO t VALUES (2);"; echo log > "$work/x.db-wal"' check "$work/x.db"
    note=$(changed_note "$work/x.db")
    log_notes "$work/x.db"
    ended_exactly 0 $'ok\n' "$wal${note%.}"
    [ "$(sqlite3 "$work/x.db" 'SELECT count(*) FROM t')" = 2 ]
}

@test 'a lock on the file is not waited for' {
    needs flock timeout
    cp "$data/whole.db" "$work/x.db"
    for command in "${five[@]}"; do
        flock -x "$work/x.db" timeout 10 "$DBCK" "$command" "$work/x.db" > "$work/out"
    done
    if command -v python3 > "$work/why"; then
        # The lock by which SQLite keeps others from a database that it writes.
        python3 - "$work/x.db" "$DBCK" << 'END'
import fcntl
import subprocess
import sys

file = open(sys.argv[1], "r+b")
fcntl.lockf(file, fcntl.LOCK_EX, 512, 0x40000000)
run = subprocess.run([sys.argv[2], "check", sys.argv[1]], capture_output=True, timeout=10)
if (run.returncode, run.stdout, run.stderr) != (0, b"ok\n", b""):
    sys.exit(run)
END
    fi
}

@test 'a link leads to its file, through any number of links' {
    mkdir "$work/here" "$work/there"
    cp "$data/two-owners.db" "$work/there/x.db"
    ln -s ../there/x.db "$work/here/link"
    ln -s link "$work/here/other"
    ln -s "$work/here" "$work/folder"
    ln "$work/there/x.db" "$work/here/hard"
    for name in here/link here/other folder/other folder/hard; do
        exactly 1 "$twice$unused" '' check "$work/$name"
    done
    # The picture has the name that was given.
    expect 1 "$picture other</title>*" '' map "$work/folder/other"
}

@test 'a link that leads to nothing, to itself, to a folder or to a pipe is said to' {
    needs timeout
    mkdir "$work/here"
    mkfifo "$work/pipe"
    ln -s missing "$work/nothing"
    ln -s itself "$work/itself"
    ln -s second "$work/first"
    ln -s first "$work/second"
    ln -s here "$work/to-folder"
    ln -s pipe "$work/to-pipe"
    ln -s /dev/zero "$work/to-zero"
    while IFS='|' read -r name reason; do
        for command in "${five[@]}"; do
            status=0
            timeout 10 "$DBCK" "$command" "$work/$name" > "$work/out" 2> "$work/err" < /dev/null || status=$?
            ended_exactly 4 '' "dbck: note: $work/$name: $reason"$'\n'"$unread"
        done
    done << 'END'
nothing|No such file or directory
itself|Too many levels of symbolic links
first|Too many levels of symbolic links
itself/x|Too many levels of symbolic links
here|a directory
here/|a directory
to-folder|a directory
to-pipe|not a regular file: unpack it first
pipe|not a regular file: unpack it first
to-zero|not a regular file: unpack it first
END
}

@test 'a named pipe is not read, also where somebody writes to it' {
    needs timeout
    mkfifo "$work/pipe"
    exec 7<> "$work/pipe"
    cat "$data/empty.db" >&7
    status=0
    timeout 10 "$DBCK" check "$work/pipe" > "$work/out" 2> "$work/err" < /dev/null 7>&- || status=$?
    ended_exactly 4 '' "dbck: note: $work/pipe: not a regular file: unpack it first"$'\n'"$unread"
    # All that was written is still there.
    head -c 512 <&7 | cmp - "$data/empty.db"
    exec 7>&-
}

@test 'a socket is no file' {
    needs python3
    cd "$work"
    python3 -c 'import socket; socket.socket(socket.AF_UNIX).bind("socket")'
    exactly 4 '' $'dbck: note: socket: not a regular file: unpack it first\n'"$unread" check socket
}

@test 'a database on standard input is taken by its name, and - is no file' {
    status=0
    "$DBCK" check /dev/stdin < "$data/whole.db" > "$work/out" 2> "$work/err" || status=$?
    ended_exactly 0 $'ok\n' ''
    status=0
    "$DBCK" check - < "$data/whole.db" > "$work/out" 2> "$work/err" || status=$?
    ended_exactly 4 '' $'dbck: note: -: not a regular file: unpack it first\n'"$unread"
    cd "$work"
    cp "$root/$data/two-owners.db" ./-
    exactly 1 "$twice$unused" '' check -
    cat "$root/$data/whole.db" | { status=0; "$DBCK" check /dev/stdin > "$work/out" 2> "$work/err" || status=$?; ended_exactly 4 '' $'dbck: note: /dev/stdin: not a regular file: unpack it first\n'"$unread"; }
}

@test 'a database of any mode and time is read that the caller may read' {
    local mode time
    cp "$data/whole.db" "$work/x.db"
    for mode in 600 640 400 755; do
        chmod "$mode" "$work/x.db"
        exactly 0 $'ok\n' '' check "$work/x.db"
    done
    for time in 1970 1960; do
        touch -d "$time-01-01 00:00:00Z" "$work/x.db"
        exactly 0 $'ok\n' '' check "$work/x.db"
    done
    [ "$(id -u)" = 0 ] || skip 'only root reads what nobody may read'
    chmod 000 "$work/x.db"
    exactly 0 $'ok\n' '' check "$work/x.db"
}

# apart: a process, $pid, in another mount namespace, to which $work/data is $work/inner; $far is its path there. Both have an
# x.db, and a link.db that leads to it; a -wal is beside that of $work/data alone.
apart() {
    local folder suffix
    needs unshare mount python3
    unshare -m true 2> "$work/why" || skip "no mount namespace here: $(cat "$work/why")"
    mkdir "$work/inner" "$work/data"
    cp "$data/two-owners.db" "$work/inner/x.db"
    paired
    for suffix in '' -wal; do mv "$work/pair.db$suffix" "$work/data/x.db$suffix"; done
    for folder in inner data; do ln -s x.db "$work/$folder/link.db"; done
    # shellcheck disable=SC2016
    unshare -m sh -c 'mount --bind "$1/inner" "$1/data" && : > "$1/ready" && exec sleep 60' sh "$work" < /dev/null > "$work/why" 2>&1 3>&- &
    pid=$!
    until [ -e "$work/ready" ]; do
        kill -0 "$pid" 2> /dev/null || skip "nothing can be mounted here: $(cat "$work/why")"
        sleep 0.01
    done
    far=/proc/$pid/root$(realpath "$work")/data
}

# A path through /proc is not what its text leads to.
@test 'a database in another mount namespace is read, and none that has its path here' {
    local far pid
    apart
    exactly 1 "$twice$unused" '' check "$far/x.db"
    exactly 1 "$twice$unused" '' check --recovered "$far/x.db"
    kill "$pid"
}

@test 'no log is taken of another database that has here the path of a link in another mount namespace' {
    local far note pid
    apart
    note="dbck: note: $far/link.db: whether a log is beside it is not known"$'\n'
    exactly 1 "$twice$unused" "$note" check "$far/link.db"
    exactly 4 '' "$note$unread" check --recovered "$far/link.db"
    kill "$pid"
}
