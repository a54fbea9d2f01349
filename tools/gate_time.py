#!/usr/bin/env python3
"""Runs a command and writes to a file the processor time that it took, by what it was for: gate_time.py FILE COMMAND..

The prover's processes are told apart by their arguments: proofs of crates, proofs of tests, and edits with the proofs that they begin
with. Each is looked at twice a second, and its last half second may go to `programs and the rest`, which is what is left of the whole.
The exit status is that of the command."""
import glob, os, re, resource, subprocess, sys, time

TICKS = os.sysconf("SC_CLK_TCK")
KINDS = ("proofs", "edits", "tests", "programs and the rest")


def kind_of(words):
    if not re.search(r"/rattle\0", words):
        return None
    if "/rt-edits-" in words:
        return "edits"
    return "tests" if "\0--test\0" in words else "proofs"


def read(path):
    try:
        with open(path, encoding="utf-8", errors="replace") as file:
            return file.read()
    except OSError:
        return ""


def below(parents, process, root):
    """Whether a process was started by another, or by one that it started."""
    while process in parents and process != root:
        process = parents[process]
    return process == root


def look(root, spent):
    """Notes of each process of the prover below another its kind and the seconds that it has taken so far."""
    stats = {int(path.split("/")[2]): read(path).rpartition(")")[2].split() for path in glob.glob("/proc/[0-9]*/stat")}
    stats = {process: fields for process, fields in stats.items() if len(fields) > 19}
    parents = {process: int(fields[1]) for process, fields in stats.items()}
    for process, fields in stats.items():
        kind = kind_of(read(f"/proc/{process}/cmdline"))
        if kind and below(parents, process, root):
            # A process is one by its number and the time of its start.
            spent[process, fields[19]] = kind, (int(fields[11]) + int(fields[12])) / TICKS


def main():
    began = time.monotonic()
    spent = {}
    with subprocess.Popen(sys.argv[2:]) as run:
        while run.poll() is None:
            look(run.pid, spent)
            time.sleep(0.5)
    used = resource.getrusage(resource.RUSAGE_CHILDREN)
    whole = used.ru_utime + used.ru_stime
    sums = {kind: sum(taken for of, taken in spent.values() if of == kind) for kind in KINDS[:3]}
    sums[KINDS[3]] = max(whole - sum(sums.values()), 0)
    parts = ", ".join(f"{kind} {sums[kind] / 60:.1f}" for kind in KINDS)
    wall = (time.monotonic() - began) / 60
    with open(sys.argv[1], "w", encoding="utf-8") as file:
        print(f"processor minutes: {parts}; together {whole / 60:.1f}, in {wall:.1f} minutes", file=file)
    sys.exit(run.returncode)


main()
