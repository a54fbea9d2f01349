#!/usr/bin/env python3
"""What a run over a database and a log of it answers where a read fails, or memory is refused: each call in turn.

    tests/failing.py DBCK FOLDER

A library that is loaded before the C library lets the call of one number fail; `cc` makes it in FOLDER. A read that fails has to end the run
with status 4 and E8 and one note on what cannot be read, a growth that is refused with 5 and E9; or all is as it is without: a longer read is
made again, of the page alone, and a growth may be one of a note. The note on a read names the file and the bytes that the library saw asked
for, and while a log is looked through that log alone. What was written by then is a beginning of the report, of whole lines; of `explain` the
first lines of what it found. The pair is as it was. One run has a link to the pair.
"""

import os
import random
import shutil
import subprocess
import sys

sys.path.insert(0, os.path.dirname(os.path.abspath(__file__)))
import logs

LIBRARY = r"""
#define _GNU_SOURCE
#include <dlfcn.h>
#include <errno.h>
#include <stdio.h>
#include <stdlib.h>
#include <unistd.h>

static long calls, of_read, at, told;

static long number(const char *name) {
    const char *text = getenv(name);
    return text ? atol(text) : 0;
}

__attribute__((constructor)) static void begin(void) {
    of_read = number("FAILS_READ") > 0;
    told = number("TOLD");
    calls = 0;
    at = number(of_read ? "FAILS_READ" : "FAILS_GROWTH");
}

static int fails(int is_read) {
    return at && is_read == of_read && ++calls == at;
}

static void tell(const char *text, int count) {
    if (write(told, text, count) != count) abort();
}

static int is_refused(void) {
    if (!fails(0)) return 0;
    tell("growth", 6);
    return 1;
}

#define CALL(type, name, ...) static type (*real)(__VA_ARGS__); if (!real) real = (type (*)(__VA_ARGS__))dlsym(RTLD_NEXT, name)

void *malloc(size_t count) {
    CALL(void *, "malloc", size_t);
    return is_refused() ? NULL : real(count);
}

void *realloc(void *old, size_t count) {
    CALL(void *, "realloc", void *, size_t);
    return is_refused() ? NULL : real(old, count);
}

ssize_t pread(int file, void *bytes, size_t count, off_t from) {
    CALL(ssize_t, "pread", int, void *, size_t, off_t);
    if (!fails(1)) return real(file, bytes, count, from);
    char link[64], text[4200];
    snprintf(link, sizeof link, "/proc/self/fd/%d", file);
    int start = snprintf(text, sizeof text, "%zu %ld ", count, (long)from);
    tell(text, start + readlink(link, text + start, 4096));
    errno = EIO;
    return -1;
}
"""

COMMANDS = (["check"], ["stat", "--all"], ["explain"], ["map"])
ERRORS = {"FAILS_READ": (4, b"dbck: E8 the file cannot be read\n"), "FAILS_GROWTH": (5, b"dbck: E9 out of memory\n")}


def ran(words, library, what, number):
    """How a run ended whose call of this number failed, what it wrote, what the library tells of that call, if there was one, and the notes."""
    told, tells = os.pipe()
    env = {"LD_PRELOAD": library, "TOLD": str(tells), what: str(number)}
    done = subprocess.run(words, stdout=subprocess.PIPE, stderr=subprocess.PIPE, pass_fds=(tells,), env=env, check=False, timeout=60)
    os.close(tells)
    failed = os.read(told, 5000)
    os.close(told)
    lines = done.stderr.splitlines(keepends=True)
    notes = [line for line in lines if line.startswith(b"dbck: note: ")]
    return (done.returncode, done.stdout, b"".join(line for line in lines if line not in notes)), failed, notes


def are_lines_of(out, whole):
    """Whether these are whole lines of a report, in its order."""
    rest = iter(whole.splitlines(keepends=True))
    return out[-1:] in (b"", b"\n") and all(line in rest for line in out.splitlines(keepends=True))


def unread_note(failed, path, notes):
    """The note on a read that failed, by what the library tells of it and the other notes: one says when the log was looked through."""
    count, start, opened = failed.split(b" ", 2)
    database = (os.path.realpath(path) if os.path.islink(path) else path).encode()
    suffix = next((suffix for suffix in (b"-wal", b"-journal") if opened.endswith(suffix)), b"")
    if any(b" read from it" in note for note in notes):
        said = b"%s: the %s bytes at %s cannot be read" % (database + suffix if suffix else path.encode(), count, start)
    elif suffix == b"-wal":
        said = database + b"-wal cannot be read, or the length of its database is not known"
    else:
        said = database + b"-journal or its database cannot be read"
    return b"dbck: note: %s\n" % said


def are_right(what, status, notes, none, failed, path):
    """Whether the notes of a run in which a read failed say which, once, and not that another call did; none is of a log that is not there."""
    if any(none in note for note in notes):
        return False
    if what == "FAILS_GROWTH" or status != ERRORS[what][0]:
        return True
    unread = [note for note in notes if b"cannot be read" in note]
    return unread == [unread_note(failed, path, notes)] and not any(b": its length is not known" in note for note in notes)


def is_right(command, what, got, whole):
    """Whether a run in which a call failed ended as it has to, where this is how it ends if none does."""
    (status, out, err), (error, line) = got, ERRORS[what]
    if got == whole:
        return True
    is_part = are_lines_of(out, whole[1]) and (command == ["explain"] or whole[1].startswith(out))
    return status == error and is_part and err.endswith(line) and whole[2].startswith(err[: -len(line)])


def run(dbck, folder):
    rnd, wrong = random.Random(3), 0
    shutil.rmtree(folder, ignore_errors=True)
    os.makedirs(folder)
    library = folder + "/failing.so"
    logs.put(folder + "/failing.c", LIBRARY.encode())
    subprocess.run(["cc", "-shared", "-fPIC", "-O1", "-o", library, folder + "/failing.c", "-ldl"], check=True)
    # beside each log, without and with a fault
    for more, suffix in ((more, suffix) for suffix in ("-wal", "-journal") for more in ([], ["--with", "100=07"])):
        os.makedirs(folder + "/pair")
        (logs.wal_pair if suffix == "-wal" else logs.hot_pair)(folder + "/pair", rnd)
        none = b"-journal" if suffix == "-wal" else b"-wal"
        pair = (folder + "/pair/kept", folder + "/pair/kept" + suffix)
        before = logs.seen(pair)
        link = folder + "/pair/link"
        os.symlink("kept", link)
        for command, path in [(command, pair[0]) for command in COMMANDS] + [(["stat", "--all"], link)]:
            words = [dbck] + command + more + ["--recovered", path]
            whole, _, _ = ran(words, library, "FAILS_READ", 0)
            for what in ERRORS:
                number, failed = 0, b"none yet"
                while failed:
                    number += 1
                    got, failed, notes = ran(words, library, what, number)
                    ends_well = is_right(command, what, got, whole) and are_right(what, got[0], notes, none, failed, path)
                    if got != whole if not failed else not ends_well:
                        wrong += 1
                        print("%s, %s %d: status %d, %d bytes, %r" % (" ".join(command), what, number, got[0], len(got[1]), got[2][-80:]))
                        print(failed, notes)
                print("%s: %s, %d calls, ends with %d without" % (" ".join(command), what, number - 1, whole[0]))
        if logs.seen(pair) != before:
            wrong += 1
            print("the pair was changed")
        shutil.rmtree(folder + "/pair")
    print("%d wrong" % wrong)
    return 1 if wrong else 0


if __name__ == "__main__":
    if len(sys.argv) != 3:
        sys.exit(__doc__)
    sys.exit(run(*sys.argv[1:]))
