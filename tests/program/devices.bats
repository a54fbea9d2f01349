# A block device is read as a file with the same bytes is. Skipped where no loop device can be made.
load common

# with_device FILE: makes a link $device to a loop device over a file; both have the name x.db.
with_device() {
    needs losetup
    loop=$(losetup --find --show --read-only "$1" 2> "$work/why") || skip "no loop device: $(cat "$work/why")"
    mkdir "$work/device"
    device=$work/device/x.db
    ln -s "$loop" "$device"
    # The system may make its device file a little later.
    for _ in 1 2 3 4 5 6 7 8 9 10; do
        [ ! -b "$loop" ] || break
        sleep 0.1
    done
    [ -r "$loop" ] || skip "$loop cannot be read"
}

teardown() {
    [ -z "${loop:-}" ] || losetup --detach "$loop"
    ends_test
}

# as_a_file FILE: each command writes of the device what it writes of the file.
as_a_file() {
    local words wanted
    for words in check 'check --limit 1' explain map mend stat 'stat --all' 'stat --aggregate --all'; do
        # shellcheck disable=SC2086
        dbck $words "$1"
        sed "s|$1|$device|g" "$work/err" > "$work/errors"
        mv "$work/out" "$work/report"
        wanted=$status
        # shellcheck disable=SC2086
        dbck $words "$device"
        cmp "$work/report" "$work/out"
        cmp "$work/errors" "$work/err"
        [ "$status" = "$wanted" ]
    done
}

@test 'a sound database on a device' {
    mkdir "$work/file"
    cp "$data/whole.db" "$work/file/x.db"
    with_device "$work/file/x.db"
    exactly 0 $'ok\n' '' check "$device"
    exactly 0 $'ok\n' '' check "$loop"
    expect 0 "$picture ${loop##*/}</title>*" '' map "$loop"
    as_a_file "$work/file/x.db"
}

@test 'a database with faults on a device' {
    mkdir "$work/file"
    cp "$data/two-owners.db" "$work/file/x.db"
    with_device "$work/file/x.db"
    exactly 1 "$twice$unused" '' check "$device"
    as_a_file "$work/file/x.db"
}

@test 'the length of a device is that of its end' {
    # Beyond 4 GiB, and three sectors more than the pages that the header states.
    mkdir "$work/file"
    cp "$data/whole.db" "$work/file/x.db"
    sparse "$work/file/x.db" 5000001024
    with_device "$work/file/x.db"
    exactly 0 $'ok\n' $'dbck: note: 4999994368 bytes after page 13 are not read, 9765614 whole pages among them\n' check "$device"
    as_a_file "$work/file/x.db"
}

@test 'of a device each MiB is read as a whole where it is slow' {
    row_of 300 65536 "$work/x.db"
    with_device "$work/x.db"
    on_disk SLOW=1000 "READS=$work/reads"
    exactly 0 $'ok\n' '' check "$device"
    # 300 pages of 65536 bytes are 18 MiB and a part of one.
    [ "$(grep -c '^1048576 ' "$work/reads")" = 19 ]
}

@test 'a device that is shorter than its database, and one without one' {
    mkdir "$work/file"
    head -c 6144 "$data/whole.db" > "$work/file/x.db"
    with_device "$work/file/x.db"
    expect 1 $'H06 page 1 item 0 value 13: file is shorter than its stated size\n*' '' check "$device"
    as_a_file "$work/file/x.db"
    rm "$device"
    losetup --detach "$loop"
    rmdir "$work/device"
    head -c 512 /dev/zero > "$work/file/x.db"
    with_device "$work/file/x.db"
    exactly 3 '' "dbck: note: $loop is not checked"$'\n'"dbck: note: $loop begins with zeros"$'\ndbck: E2 file is not a SQLite 3 database\n' check "$loop"
    as_a_file "$work/file/x.db"
}

@test 'a device is left as it is' {
    cp "$data/whole.db" "$work/x.db"
    with_device "$work/x.db"
    before=$(stat -c '%i %Y %Z %a' "$loop")
    for command in "${five[@]}"; do
        dbck "$command" "$device"
        [ "$status" = 0 ]
    done
    [ "$(stat -c '%i %Y %Z %a' "$loop")" = "$before" ]
    cmp "$work/x.db" "$data/whole.db"
}

# It is of the group that the system gives it, and nobody is not in that.
@test 'of a device that the caller may not open a note says so' {
    cp "$data/whole.db" "$work/x.db"
    with_device "$work/x.db"
    to_be_nobody
    ! "${as[@]}" test -r "$loop" || skip "everybody may read $loop"
    for command in "${five[@]}"; do
        exactly 4 '' "dbck: note: $loop: Permission denied"$'\n'"$unread" "$command" "$loop"
    done
    [ "$rows" = 5 ]
}

@test 'a device without a disk has no bytes' {
    needs losetup mknod
    free=$(losetup --find 2> "$work/why") || skip "no loop device: $(cat "$work/why")"
    [ -r "$free" ] || skip "$free cannot be read"
    exactly 3 '' "dbck: note: $free is not checked"$'\n'"dbck: note: $free has no bytes; to SQLite it is an empty database"$'\ndbck: E1 file is shorter than 100 bytes\n' check "$free"
}
