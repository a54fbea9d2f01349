#!/usr/bin/env bats
# What cannot be read: status 4, and a note that says why.
load common

@test 'a device and standard input are no regular files' {
    for command in "${five[@]}"; do
        for path in /dev/null /dev/zero -; do
            expect 4 '' "dbck: note: $path: not a regular file: unpack it first"$'\n'"$unread" "$command" "$path"
        done
    done
}

@test 'what comes to the path before it is opened, and is no regular file, is not read' {
    cp "$data/whole.db" "$work/x.db"
    on_disk OTHER=/dev/zero NAME=/x.db
    for command in "${five[@]}"; do
        exactly 4 '' "$unread" "$command" "$work/x.db"
    done
    [ "$rows" = 5 ]
}

@test 'a folder is not read' {
    for command in "${five[@]}"; do
        expect 4 '' "dbck: note: $work: a directory"$'\n'"$unread" "$command" "$work"
    done
}

@test 'what is not there is not read, and its name is shown without control characters' {
    : > "$work/no-bytes.db"
    for command in "${five[@]}"; do
        for path in "$work/missing.db" '' "$work/"$'no\e'; do
            expect 4 '' "dbck: note: ${path/$'\e'/\\\\x1b}: No such file or directory"$'\n'"$unread" "$command" "$path"
        done
        expect 4 '' "dbck: note: $work/no-bytes.db/x: Not a directory"$'\n'"$unread" "$command" "$work/no-bytes.db/x"
    done
}

@test 'a named pipe is not waited for' {
    mkfifo "$work/named"
    as=(timeout 10)
    for command in "${five[@]}"; do
        dbck "$command" "$work/named"
        row "$command of a named pipe" ended 4 '' "dbck: note: $work/named: not a regular file: unpack it first"$'\n'"$unread"
    done
}

@test 'a file that the caller may not read is not read' {
    cp "$data/empty.db" "$work/closed.db"
    chmod 000 "$work/closed.db"
    to_be_nobody
    for command in "${five[@]}"; do
        expect 4 '' "dbck: note: $work/closed.db: Permission denied"$'\n'"$unread" "$command" "$work/closed.db"
    done
}

@test 'of a file that has fewer bytes than it says a note names those that are not there' {
    local lying=/sys/devices/system/cpu/online
    [ -f "$lying" ] || skip "there is no $lying"
    expect 4 '' "dbck: note: $lying: the 100 bytes at 0 cannot be read"$'\n'"$unread" check "$lying"
}

@test 'a read that gives a part of what is asked for, or is interrupted, is gone on with' {
    local disk name setting
    for name in tests/sqlite/*.db; do
        as=()
        dbck stat --all "$name"
        cp "$work/out" "$work/wanted"
        for disk in "${disks[@]}"; do
            for setting in SHORT=100 SHORT=1000 INTERRUPTED=1; do
                on_disk "$disk" "$setting"
                dbck stat --all "$name"
                row "$name where $disk $setting" cmp "$work/out" "$work/wanted"
                row "the end of $name where $disk $setting" ended 0 '*' ''
            done
        done
    done
}

# table_of_rows: makes x.db, a sound table of 60000 rows in pages of 65536 bytes.
table_of_rows() {
    needs sqlite3
    sqlite3 "$work/x.db" 'PRAGMA page_size = 65536; CREATE TABLE t (a INTEGER PRIMARY KEY, b);
        WITH RECURSIVE k(n) AS (SELECT 1 UNION ALL SELECT n + 1 FROM k WHERE n < 60000) INSERT INTO t SELECT n, zeroblob(100) FROM k;'
    exactly 0 $'ok\n' '' check "$work/x.db"
}

# Of the first page of a MiB the beginning is read, and then the rest.
@test 'of a long page of which each read gives a part all is read' {
    local disk setting
    table_of_rows
    for disk in "${disks[@]}"; do
        for setting in SHORT=4095 SHORT=4096 SHORT=30000 SHORT=61439 INTERRUPTED=1; do
            on_disk "$disk" "$setting"
            exactly 0 $'ok\n' '' check "$work/x.db"
        done
    done
}

# The file is cut to its first page while its rows are read: the page that cannot be read is the one after that of the last row.
@test 'a page that cannot be read ends a run, and a note says which bytes they are' {
    local pages at version='H01 page 1 item 18 value 3: file version is not 1 or 2'
    large_database
    put_at "$work/large.db" 18 '\03'
    meanwhile "$work/large.db" truncate -s 512 "$work/large.db"
    at=$((512 * $(wc -l < "$work/out")))
    row 'a page that cannot be read' ended 4 $'sqlite_schema\t/\t1\t*' "*$version"$'\n'\
"dbck: note: $work/large.db: the 512 bytes at $at cannot be read"$'\n'"dbck: note: $work/large.db was changed while it was read; *"$'\n'"$unread"
}

@test 'a bad block within a page is E8, with the bytes of the page' {
    local bad disk page
    table_of_rows
    # Page 33 is the first of a MiB, and page 35 is not.
    while read -r bad page; do
        for disk in "${disks[@]}"; do
            on_disk "$disk" "BAD=$bad" NAME=/x.db
            exactly 4 '' "dbck: note: $work/x.db: the 65536 bytes at $page cannot be read"$'\n'"$unread" check "$work/x.db"
        done
    done << 'END'
2129920 2097152
2097152 2097152
2101248 2097152
2158592 2097152
2260992 2228224
END
    [ "$rows" = 11 ]
}

# No number of an overflow page is in its bad block.
@test 'a bad block in the bytes of a row is E8, with the bytes of its page' {
    local disk
    row_of 300 65536 "$work/x.db"
    for disk in "${disks[@]}"; do
        on_disk "$disk" BAD=2129920 NAME=/x.db
        exactly 4 '' "dbck: note: $work/x.db: the 65536 bytes at 2097152 cannot be read"$'\n'"$unread" check "$work/x.db"
    done
}

# Pages of 4096 bytes are read several at a time.
@test 'a bad block within a read of several pages is E8, with the bytes of its page' {
    local disk page
    row_of 2002 4096 "$work/x.db"
    exactly 0 $'ok\n' '' check "$work/x.db"
    for page in 4194304 4198400 4202496; do
        for disk in "${disks[@]}"; do
            on_disk "$disk" "BAD=$page" NAME=/x.db
            exactly 4 '' "dbck: note: $work/x.db: the 4096 bytes at $page cannot be read"$'\n'"$unread" check "$work/x.db"
        done
    done
}

# Here each page alone can be read.
@test 'where a read of several pages fails, each of them is read alone' {
    local disk longest
    row_of 2002 4096 "$work/x.db"
    for longest in 4096 16384 131072; do
        for disk in "${disks[@]}"; do
            on_disk "$disk" "LONGEST=$longest"
            exactly 0 $'ok\n' '' check "$work/x.db"
        done
    done
}

# Page 33, the first of the third MiB, is in the freelist, and pages after it are used.
@test 'a bad block of a page that is not read is passed over' {
    local disk
    needs sqlite3
    sqlite3 "$work/x.db" 'PRAGMA page_size = 65536; CREATE TABLE t (b); CREATE TABLE u (b);
        INSERT INTO t VALUES (zeroblob(20 * 65532)); INSERT INTO u VALUES (zeroblob(16 * 65532)); INSERT INTO t VALUES (zeroblob(200 * 65532));
        DELETE FROM u;'
    for disk in "${disks[@]}"; do
        on_disk "$disk" BAD=2097152 NAME=/x.db
        exactly 0 $'ok\n' '' check "$work/x.db"
    done
}

@test 'the bytes above 4 GiB that cannot be read are named' {
    local first at disk setting
    needs python3
    first=$(python3 tests/program/make.py long 8 "$work/x.db" | sed -n 's/^first=//p')
    at=$((65536 * (first - 1)))
    # A block that is bad, and a file that ends before or within the page.
    for setting in "BAD=$at" "END=$at" "END=$((at + 4096))"; do
        for disk in "${disks[@]}"; do
            on_disk "$disk" "$setting" NAME=/x.db
            exactly 4 '' "dbck: note: $work/x.db: the 65536 bytes at $at cannot be read"$'\n'"$unread" check "$work/x.db"
        done
    done
}

# EIO, ENODATA, EBADMSG, ESTALE and EREMOTEIO.
@test 'a read that fails for any reason is E8' {
    local disk error
    row_of 2002 4096 "$work/x.db"
    for error in 5 61 74 116 121; do
        for disk in "${disks[@]}"; do
            on_disk "$disk" "ERROR=$error" BAD=4194304 NAME=/x.db
            exactly 4 '' "dbck: note: $work/x.db: the 4096 bytes at 4194304 cannot be read"$'\n'"$unread" check "$work/x.db"
        done
    done
}

@test 'a bad block in a part of a log that is not needed is passed over' {
    local disk name note
    with_zeros
    while read -r note; do
        name=${note%%[: ]*}
        for disk in "${disks[@]}"; do
            on_disk "$disk" BAD=33554432 "NAME=/$name"
            exactly 0 $'ok\n' "dbck: note: $work/$note"$'\n' check --recovered "$work/${name%-*}"
        done
    done << 'END'
cold.db-journal begins with 0, and is not rolled back: SQLite does not need it
hot.db-journal: 1 page is read from it; the database had 1 page
wal.db-wal holds nothing that SQLite would read
END
    [ "$rows" = 6 ]
}
