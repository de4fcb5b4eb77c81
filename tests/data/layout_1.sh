#!/bin/sh
# Makes a database of layout 1, with a program that keeps no reasons, such as the one that `make build` makes at the
# commit 8b496c2 of this repository:
#
#     tests/data/layout_1.sh PROGRAM DATABASE
#
# It made tests/data/layout_1.db, which has an active release, a later one without a label, an empty one of another
# package, and one of a third package whose last bytes are missing.
set -eu
PATH=$(realpath "$(dirname "$1")"):$PATH; database=$(realpath "$2")
TESTS=$(realpath "$(dirname "$0")/..")
work=$(mktemp -d); cd "$work"
. "$TESTS/lib/lists.sh"; . "$TESTS/lib/serving.sh"
mkdir lists
printf "$HEADER$ACTA" > lists/$J
printf "$SHORT" > lists/$F
: > lists/Borealis_2024-01-01.txt
printf "$HEADER$ACTA$BETA$GAMMA" > lists/Cygnus_2024-01-01.txt
rm -f "$database" "$database-wal"
fetched() { kbfeed fetch "$database" "$ADDR" "$@" || true; }
serving lists
fetched $J --piece 100
fetched $F --piece 100
fetched Borealis_2024-01-01.txt
kill $SERVER; wait $SERVER 2> /dev/null || true
serving lists --count 2
fetched Cygnus_2024-01-01.txt --piece 100
wait $SERVER || true
kbfeed status "$database"; rm -f "$database-wal"
cd /; rm -r "$work"
