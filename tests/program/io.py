#!/usr/bin/env python3
"""Runs a program, and writes how it ended and how much it read: io.py COUNTS [--forget FILE] [--cut FILE] PROGRAM WORDS..

The file COUNTS gets its status, the bytes that it read, the calls that read them, and the most KiB of memory that it had, as the system
counted them: what it read is looked up when it has ended and is still in the table of processes. Before it starts, --forget lets the system
forget what it keeps of FILE in memory; --cut cuts FILE to 65536 bytes while the program waits for the reader of its first output, which it
has to fill.
"""

import os
import sys


def forget(path):
    file = os.open(path, os.O_RDONLY)
    os.fsync(file)
    os.posix_fadvise(file, 0, 0, os.POSIX_FADV_DONTNEED)
    os.close(file)


def counts(pid):
    with open(f"/proc/{pid}/io") as lines:
        return dict(line.split(": ") for line in lines.read().splitlines())


def main(words):
    cut, counted = None, words[0]
    words = words[1:]
    while words[0] in ("--forget", "--cut"):
        if words[0] == "--forget":
            forget(words[1])
        else:
            cut = words[1]
        words = words[2:]
    if cut:
        from_program, to_reader = os.pipe()
    pid = os.fork()
    if pid == 0:
        if cut:
            os.dup2(to_reader, 1)
        os.closerange(3, 64)
        os.execvp(words[0], words)
    if cut:
        os.close(to_reader)
        piece = os.read(from_program, 1)
        os.truncate(cut, 65536)
        while piece:
            os.write(1, piece)
            piece = os.read(from_program, 65536)
    ended = os.waitid(os.P_PID, pid, os.WEXITED | os.WNOWAIT)
    found = counts(pid)
    status = ended.si_status if ended.si_code == os.CLD_EXITED else 128 + ended.si_status
    memory = os.wait4(pid, 0)[2].ru_maxrss
    with open(counted, "w") as out:
        print(status, found["rchar"].strip(), found["syscr"].strip(), memory, file=out)


main(sys.argv[1:])
