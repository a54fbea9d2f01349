#!/usr/bin/env bash
# What can be run without a proof, `make test`: unproved.sh DBCK. The tests of each crate that has some, the table of dbpage_tests, and
# the tests of the program DBCK, if it is built.
set -u
program=${1:?give the program}
cd "$(dirname "$0")/.." || exit
failed=0
for crate in $(grep -lr '#\[test\]' crates/*/src | cut -d/ -f2 | sort -u); do
    echo "$crate: its tests"
    (cd "crates/$crate" && rt try --test) || failed=1
done
echo 'dbpage_tests: its table'
(cd crates/dbpage_tests && rt try < stdin | diff stdout -) || failed=1
if [ ! -x "$program" ]; then
    echo "the program $program is not built: make builds it, with its proofs"
elif ! command -v bats > /dev/null; then
    echo 'bats is missing, which runs the tests of the program: apt-get install bats' >&2
    failed=1
else
    DBCK=$program bats tests/program || failed=1
fi
exit "$failed"
