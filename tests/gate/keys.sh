#!/usr/bin/env bash
# The keys that stores keep, by both programs: each text of tests/data/keys.tsv is answered with its key at 18 places. (By
# the library for C ./check c compares them, at each number of places.)
#
# Build the programs first (rt run in crates/wktline and in crates/wktstream).
set -u
cd "$(dirname "$0")/../.." || exit 1
status=0
for program in wktline wktstream; do
    if grep -v '^#' tests/data/keys.tsv | cut -f 1 | "crates/$program/out/$program" |
        cmp - <(grep -v '^#' tests/data/keys.tsv | cut -f 5); then
        echo "$program: $(grep -vc '^#' tests/data/keys.tsv) keys as they were"
    else
        echo "$program: other keys: a release must not change one"
        status=1
    fi
done
exit $status
