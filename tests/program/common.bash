# What the tests of the built program share; each file of this folder begins with `load common`. The program is $DBCK, or what `rt` built.
# A test that cannot be run here says what it lacks (`needs`), and is skipped.
# shellcheck shell=bash disable=SC2034
root=$(cd "${BASH_SOURCE[0]%/*}/../.." && pwd)
DBCK=$(realpath "${DBCK:-$root/crates/dbck/out/dbck}")
export DBCK LC_ALL=C.UTF-8
data=crates/dbck/data

# A fault line, a row, the beginning of a picture, two errors, and a note before the second.
unused=$'N01 page 8 item 0 value 0: page is not in use\n'
twice=$'R03 page 2 item 2 value 7: page is already in use\n'
page=$'sqlite_schema\t/\t1\tleaf\t0\t0\t404\t0\t0\t512\n'
tree=$'sqlite_schema\t-\t1\t-\t0\t0\t404\t0\t-\t512\n'
picture='<svg xmlns=*<title>Pages of'
unread=$'dbck: E8 the file cannot be read\n'
unwritten=$'dbck: E10 the output cannot be written\n'
full=$'dbck: note: standard output: No space left on device\n'
five=(check explain map mend stat)

# Each test begins at the top of the repository, with a folder of its own that is gone after it.
setup() {
    [ -x "$DBCK" ] || { echo "there is no program $DBCK" && return 1; }
    cd "$root" || return
    work=$(mktemp -d "${BATS_TMPDIR:-/tmp}/dbck.XXXXXX")
    as=()
    flags=()
    rows=0
    failing=$BATS_TEST_TMPDIR/failing
}

# A row that does not hold is named at once, and fails its test here: so all rows of a table are looked at.
ends_test() {
    [ -z "${work:-}" ] || rm -rf "$work"
    [ ! -s "${failing:-}" ]
}

teardown() {
    ends_test
}

# row NAME TEST..: a row of a table, which is named where its test fails, before what the test says.
row() {
    rows=$((rows + 1))
    "${@:2}" > "$work/said" 2>&1 || {
        echo "FAILED: ${1//[^[:print:]]/?}" | tee -a "$failing"
        head -n 40 "$work/said"
    }
}

# needs TOOL..: skips the test where one of the tools is not there.
needs() {
    local tool
    for tool in "$@"; do
        command -v "$tool" > /dev/null || skip "there is no $tool"
    done
}

# fail TEXT: ends the test, and says why.
fail() {
    printf '%s\n' "$1"
    return 1
}

# dbck WORDS..: runs the program, as somebody else where `as` says so. Its outputs are the files out and err, and its end is $status, which is
# 124 where it takes more than $most seconds.
most=100
dbck() {
    status=0
    "${as[@]}" timeout "$most" "$DBCK" "$@" > "$work/out" 2> "$work/err" < /dev/null 3>&- || status=$?
}

# in_stack KIB WORDS..: the same, with a stack of 256 KiB and this address space, which may be `unlimited`.
in_stack() {
    status=0
    (ulimit -s 256 -v "$1" && exec timeout "$most" "$DBCK" "${@:2}" > "$work/out" 2> "$work/err" < /dev/null 3>&-) || status=$?
}

# show FILE: what a file begins with, in one line that harms no terminal.
show() {
    local text
    text=$(head -c 4000 "$1" | tr -d '\0' && echo .)
    printf '%q' "${text%.}"
}

# differs WANTED..: says what was wanted and what came, and fails.
differs() {
    printf 'wanted: %q\n' "$@"
    printf 'status: %s\nout: %s\nerr: %s\n' "$status" "$(show "$work/out")" "$(show "$work/err")"
    return 1
}

# ended STATUS OUT ERR: the last run has ended so. The texts are patterns of the shell, so one that ends with '*' may go on.
ended() {
    local out err
    out=$(tr -d '\0' < "$work/out" && echo .) err=$(tr -d '\0' < "$work/err" && echo .)
    # shellcheck disable=SC2053
    [[ $status == "$1" && ${out%.} == $2 && ${err%.} == $3 ]] || differs "$@"
}

# ended_exactly STATUS OUT ERR: the same, byte for byte.
ended_exactly() {
    if printf %s "$2" | cmp -s - "$work/out" && printf %s "$3" | cmp -s - "$work/err" && [ "$status" = "$1" ]; then
        return 0
    fi
    differs "$@"
}

# expect STATUS OUT ERR WORDS..: a row: the program is run, and has to end so, by patterns; exactly: byte for byte.
expect() {
    dbck "${@:4}"
    row "dbck ${*:4}" ended "$1" "$2" "$3"
}
exactly() {
    dbck "${@:4}"
    row "dbck ${*:4}" ended_exactly "$1" "$2" "$3"
}

# table NAME: the lines of NAME.txt beside the tests, without its comments.
table() {
    grep -v '^#' "$BATS_TEST_DIRNAME/$1.txt"
}

# put_at FILE OFFSET BYTES: writes bytes into a file.
put_at() {
    printf '%b' "$3" | dd of="$1" bs=1 seek="$2" conv=notrunc status=none
}

# changed NAME OFFSET BYTES: makes NAME.db, the empty database with these bytes at an offset.
changed() {
    cp "$data/empty.db" "$work/$1.db"
    put_at "$work/$1.db" "$2" "$3"
}

# with_lost FILE PAGES: makes FILE, the empty database with so many pages, of which the first alone is in use.
with_lost() {
    cp "$data/empty.db" "$1"
    truncate -s $((512 * $2)) "$1"
}

# sparse FILE BYTES: gives a file a length without taking the room for it; skips the test where the file system does not take it.
sparse() {
    truncate -s "$2" "$1" 2> "$work/why" || skip "no file of $2 bytes here: $(cat "$work/why")"
}

# on_terminal LINE: runs a line of the shell on a terminal, whose text is the output.
on_terminal() {
    status=0
    script -qec "$1" /dev/null > "$work/out" 2> "$work/err" < /dev/null 3>&- || status=$?
}

# needs_terminal: skips the test where no terminal can be made.
needs_terminal() {
    needs script
    on_terminal true
    [ "$status" = 0 ] || skip 'script makes no terminal here'
}

# writes_of OUTPUT WORDS..: a line for each write of the program to stdout or stderr: how many lines it has, and whether it ends with one.
writes_of() {
    python3 - "$1" "$DBCK" "${@:2}" << 'END'
import socket, subprocess, sys

near, far = socket.socketpair(socket.AF_UNIX, socket.SOCK_SEQPACKET)
subprocess.Popen(sys.argv[2:], **{"stdout": subprocess.DEVNULL, "stderr": subprocess.DEVNULL, sys.argv[1]: far})
far.close()
for write in iter(lambda: near.recv(70000), b""):
    print(write.count(b"\n"), "whole" if write[-1:] == b"\n" else "cut")
END
}

# meanwhile FILE COMMAND..: runs the statistics of all pages of a file, with `flags`, and the command while the run waits for its reader:
# the rows have to be so many that they fit into no pipe.
meanwhile() {
    local started
    rm -f "$work/pipe"
    mkfifo "$work/pipe"
    "$DBCK" stat --all "${flags[@]}" "$1" > "$work/pipe" 2> "$work/err" < /dev/null 3>&- &
    started=$!
    { head -c 1 > "$work/out" && "${@:2}" && cat >> "$work/out"; } < "$work/pipe"
    status=0
    wait "$started" || status=$?
}

# waits_with PROCESS FILE: whether a process has a file open, and sleeps.
waits_with() {
    local link
    for link in "/proc/$1/fd"/*; do
        [ "$link" -ef "$2" ] || continue
        # It sleeps, and still does so a little later.
        for _ in 1 2 3; do
            grep -q '^State:.*sleeping' "/proc/$1/status" || return
            sleep 0.01
        done
        return 0
    done
    return 1
}

# at_first_note COMMAND WORDS..: runs the program by words whose last is a file, which gets a log if it has none. The first line is the note
# on a log, and cannot be written, since the pipe is full: so the program waits when it has opened the file and read nothing. Then comes the
# command, a line of the shell in which $pid is the program, and then it goes on.
at_first_note() {
    local pid file=${*: -1} times=0
    [ -e "$file-wal" ] || echo log > "$file-wal"
    rm -f "$work/pipe"
    mkfifo "$work/pipe"
    exec 7<> "$work/pipe"
    dd if=/dev/zero of="$work/pipe" bs=4096 oflag=nonblock 2> "$work/why" || true
    "$DBCK" "${@:2}" > "$work/out" 2> "$work/pipe" < /dev/null 3>&- 7>&- &
    pid=$!
    until waits_with "$pid" "$file"; do
        times=$((times + 1))
        if [ "$times" -gt 1000 ] || ! kill -0 "$pid" 2> "$work/why"; then
            exec 7>&-
            fail 'the program did not wait with the file open'
            return
        fi
        sleep 0.01
    done
    eval "$1"
    exec 8< "$work/pipe" 7>&-
    tr -d '\0' <&8 > "$work/err"
    exec 8<&-
    status=0
    wait "$pid" || status=$?
    rm "$file-wal"
}

# log_notes FILE: the notes on the logs of a database, as the program names it: wal and journal.
log_notes() {
    wal="dbck: note: $1-wal is not read, and may hold changes; --recovered reads it"$'\n'
    journal="dbck: note: $1-journal is not read, and may undo changes; --recovered reads it"$'\n'
}

# changed_note FILE: the note on a file that was written meanwhile.
changed_note() {
    printf 'dbck: note: %s was changed while it was read; the report may be of no state that it had\n.' "$1"
}

# to_be_nobody: lets `as` run the program as nobody, who may not do what root may; skips the test where that cannot be.
to_be_nobody() {
    [ "$(id -u)" = 0 ] || return 0
    needs setpriv
    chmod 755 "$work"
    as=(setpriv --reuid 65534 --regid 65534 --clear-groups)
    "${as[@]}" "$DBCK" --version > /dev/null 3>&- || skip 'nobody cannot run the program here'
}

# The disks of tests of reads: all reads of the first take no time, as of a file in memory, and none of the second is fast.
disks=(SLOW=0 SLOW=20)

# system_errors: the number and the text of each error of the system, but for ENOENT, ENOMEM and ENAMETOOLONG.
system_errors() {
    python3 -c '
import errno, os
for error in sorted(errno.errorcode.keys() - {errno.ENOENT, errno.ENOMEM, errno.ENAMETOOLONG}):
    print(error, os.strerror(error))'
}

# on_disk SETTING..: lets `as` run the program with the files on a disk that is slow, or has a bad block: see disk.c.
on_disk() {
    needs cc
    [ -e "$work/disk.so" ] || cc -shared -fPIC -O1 -o "$work/disk.so" "$root/tests/program/disk.c" -ldl
    as=(env "LD_PRELOAD=$work/disk.so" "$@")
}

# row_of PAGES PAGE_SIZE FILE: a sound database of a table's one row, whose overflow pages follow one another to the end of the file, which has
# $size bytes.
row_of() {
    needs sqlite3
    sqlite3 "$3" "PRAGMA page_size = $2; CREATE TABLE t (b); INSERT INTO t VALUES (zeroblob(($1 - 2) * ($2 - 4)));"
    size=$(wc -c < "$3")
}

# small NAME: makes the databases of tests/small/NAME.txt, and lists them in `list`: number, limit and name of each.
small() {
    needs python3
    tests/small/make.py "tests/small/$1.txt" "$work/small" > "$work/list"
}

# one_small LINE FILE: makes a file as a line of such a list says it: NAME PAGES: CHANGES.
one_small() {
    needs python3
    printf '== %s\nok\n' "$1" > "$work/one.txt"
    tests/small/make.py "$work/one.txt" "$work/one" > "$work/list"
    mv "$work/one/0.db" "$2"
}

# large KIND WORDS..: makes a large file by make.py, whose numbers become variables: those of a `long` file take the place of $root. Skips the
# test where no file may be so long.
large() {
    needs python3
    python3 tests/program/make.py "$@" > "$work/numbers" 2> "$work/why" || {
        [[ $(tail -n 1 "$work/why") != OSError* ]] || skip "no such file here: $(tail -n 1 "$work/why")"
        fail "$(< "$work/why")"
    }
    # shellcheck disable=SC1091
    source "$work/numbers"
}

# large_database: makes large.db, a table of one row of 66930 overflow pages; $pages is how many pages it has.
large_database() {
    needs sqlite3
    sqlite3 "$work/large.db" 'PRAGMA page_size = 512; CREATE TABLE t (b); INSERT INTO t VALUES (zeroblob(34000000));'
    pages=$(($(wc -c < "$work/large.db") / 512))
}

# logged NAME [SIZE]: makes NAME.db, a table t(a) in pages of 512 bytes, or SIZE, and its log. The log has what the statements of standard
# input do, one a line; each is a transaction, but for what is between BEGIN and COMMIT.
logged() {
    needs python3
    python3 -c '
import shutil, sqlite3, sys
made = sys.argv[1] + "/made.db"
db = sqlite3.connect(made, isolation_level=None)
db.execute("PRAGMA page_size = " + sys.argv[3])
db.execute("PRAGMA journal_mode = WAL")
db.execute("PRAGMA wal_autocheckpoint = 0")
db.execute("CREATE TABLE t(a)")
db.execute("PRAGMA wal_checkpoint(TRUNCATE)")
for statement in sys.stdin:
    db.execute(statement)
for suffix in ("", "-wal"):
    shutil.copy(made + suffix, "%s/%s.db%s" % (*sys.argv[1:3], suffix))
' "$work" "$1" "${2:-512}"
}

# journal_of FILE: makes the journal of FILE, which had as many pages as it has. It has a record for each page of standard input, of the bytes
# of FILE.
journal_of() {
    python3 -c '
import sys
path, numbers = sys.argv[1], [int(word) for word in sys.stdin.read().split()]
data = open(path, "rb").read()
size = int.from_bytes(data[16:18], "big")
size = 65536 if size == 1 else size
words = (len(numbers), 7, len(data) // size, 512, size)
out = bytearray.fromhex("d9d505f920a163d7") + b"".join(word.to_bytes(4, "big") for word in words)
out = out.ljust(512, b"\0")
for number in numbers:
    page = data[(number - 1) * size : number * size].ljust(size, b"\0")
    out += number.to_bytes(4, "big") + page + (7 + sum(page[size - 200 : 0 : -200])).to_bytes(4, "big")
open(path + "-journal", "wb").write(out)
' "$1"
}

# name_super JOURNAL NAME: puts the name of a super-journal to the end of a journal. A @ in it stands for a byte of 0.
name_super() {
    python3 - "$@" << 'END'
import os, sys
with open(sys.argv[1], "ab") as journal:
    name = os.fsencode(sys.argv[2]).replace(b"@", b"\0")
    # SQLite adds the bytes as signed ones.
    total = sum(byte - 256 * (byte > 127) for byte in name) % 2**32
    journal.write(name + len(name).to_bytes(4, "big") + total.to_bytes(4, "big") + bytes.fromhex("d9d505f920a163d7"))
END
}

# with_zeros: makes cold.db, hot.db and wal.db, each with a log of 64 MiB that ends in zeros which nobody needs: a journal that begins with
# 0, one that gives page 1, and a -wal without a head. Their names are in `logs`.
with_zeros() {
    local name
    needs python3
    logs=(cold.db-journal hot.db-journal wal.db-wal)
    for name in "${logs[@]}"; do cp "$data/empty.db" "$work/${name%-*}"; done
    journal_of "$work/hot.db" <<< 1
    for name in "${logs[@]}"; do sparse "$work/$name" 67108864; done
}

# paired: makes pair.db, whose last transaction is in pair.db-wal alone, and whole.db, which SQLite recovered of a copy of both.
paired() {
    {
        echo BEGIN
        for k in {0..39}; do echo "INSERT INTO t VALUES ('row $k')"; done
        echo COMMIT
    } | logged pair
    for suffix in '' -wal; do cp "$work/pair.db$suffix" "$work/whole.db$suffix"; done
    python3 - "$work/whole.db" << 'END'
import sqlite3, sys
db = sqlite3.connect(sys.argv[1], isolation_level=None)
db.execute("PRAGMA wal_checkpoint(TRUNCATE)")
db.close()
END
}
