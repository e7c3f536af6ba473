#!/bin/bash
# session.sh [PROGRAM]: runs the sessions of zarr/data by the program `zarr` (out/zarr), each over a copy of that folder, and compares what
# they print with zarr/stdout and zarr/refusals. The status is 1 if one prints something else, ends with another status, or writes to
# standard error.
set -euo pipefail
tool=$(dirname "$(realpath "$0")")
crate=$tool/zarr
program=$(realpath "${1:-$tool/out/zarr}")
room=$(mktemp -d)
trap 'rm -rf "$room"' EXIT
is_wrong=0

# run NAME PRINTS STATUS: the session data/NAME.zarr, which must print the file PRINTS and end with this status.
run() {
    local wrong=0 status=0
    rm -rf "$room/data"
    cp -r "$crate/data" "$room/data"
    (cd "$room/data" && "$program" do "$1.zarr") > "$room/printed" 2> "$room/errors" || status=$?
    diff "$crate/$2" "$room/printed" || wrong=1
    if [ -s "$room/errors" ]; then cat "$room/errors" >&2; wrong=1; fi
    if [ "$status" != "$3" ]; then echo "$1: status $status in place of $3"; wrong=1; fi
    if [ "$wrong" = 1 ]; then is_wrong=1; fi
    echo "$1: $(grep -c '^\$ zarr' "$crate/$2") commands, $(wc -l < "$crate/$2") lines: $([ "$wrong" = 0 ] && echo right || echo WRONG)"
}

run session stdout 0
run refusals refusals 1
exit "$is_wrong"
