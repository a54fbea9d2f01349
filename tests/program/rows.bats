#!/usr/bin/env bats
# The rows that `explain` names, beside a slow reading of the same files.
load common

@test 'explain names the rows that a walk over the file finds, in ten injuries of each of 20 tables' {
    needs python3
    python3 -c 'import sqlite3' || skip 'python3 has no sqlite3'
    python3 tests/rows.py "$DBCK" "$work/rows" 20
}
