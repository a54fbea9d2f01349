#!/usr/bin/env bash
# The whole gate, `make check`: the tables of the edits, the documents, every proof, edit, test and program (`rt ci`), and then the program
# that it built over files of the repository. At the end come the processor time that the gate took, and what passed, failed and was
# skipped of both, added up.
set -u
cd "$(dirname "$0")/.." || exit
if ! command -v bats > /dev/null; then
    echo 'The tests of the program need bats: apt-get install bats' >&2
    exit 2
fi
said=$(mktemp -d)
trap 'rm -rf "$said"' EXIT
tools/alarms.py || exit
tools/documents.py || exit
# A crate is proved by one process: each further one reads all libraries again.
RT_JOBS=$(nproc) tools/gate_time.py "$said/time" rt ci | tee "$said/gate"
status=${PIPESTATUS[0]}
[ "$status" = 0 ] || exit "$status"
DBCK=crates/dbck/out/dbck bats --formatter tap tests/program | tee "$said/program"
status=${PIPESTATUS[0]}
cat "$said/time"
# `rt ci` ends with its counts; of bats each test is a line, which says where it was skipped. What a test writes begins with `#`.
{ tail -n 1 "$said/gate" && cat "$said/program"; } | awk '
    /^[0-9]+ passed, [0-9]+ failed/ { passed += $1; failed += $3 }
    /^ok [0-9]+ / { if (/ # skip/) skipped++; else passed++ }
    /^not ok [0-9]+ / { failed++ }
    END { print passed " passed, " failed + 0 " failed" (skipped ? ", " skipped " skipped" : "") }'
exit "$status"
