#!/bin/bash
# compare.sh A B [WORD]: measures two builds in turn, three times each, and prints for each row the least of each. A and B are folders that
# run.sh or build.sh made, or clones, which are built first, each by its own bench/build.sh.
set -euo pipefail
[ $# -ge 2 ] || { echo "compare.sh A B [WORD]" >&2; exit 2; }
word=${3:-}
times=$(mktemp)
trap 'rm -f "$times"' EXIT

# The folder of a build, or of a clone.
built() {
    if [ -x "$1/speed" ]; then realpath "$1"; return; fi
    local folder=${TMPDIR:-/tmp}/bench-$(id -u)-$(realpath "$1" | tr / -)
    nice -n 10 "$1/bench/build.sh" "$folder" >&2
    echo "$folder"
}
a=$(built "$1")
b=$(built "$2")
for _ in 1 2 3; do
    "$a/speed" times "$word" | sed 's/^/A\t/' >> "$times"
    "$b/speed" times "$word" | sed 's/^/B\t/' >> "$times"
done
awk -F '\t' '
    function least(old, new) { return old == "" || new + 0 < old + 0 ? new : old }
    function micros(x) { return x == "" ? "-" : sprintf(x < 10000 ? "%.3f" : "%.0f", x / 1000) }
    function ratio(x, y) { return x == "" || y == "" || y == "-" ? "-" : sprintf("%.2f", x / y) }
    !($2 in seen) { seen[$2] = 1; rows[++n] = $2 }
    { ours[$1, $2] = least(ours[$1, $2], $3); if ($4 != "-") plain[$2] = least(plain[$2], $4) }
    END {
        print "| row | A, us | B, us | B to A | plain Rust, us | A to it | B to it |\n|---|---|---|---|---|---|---|"
        for (k = 1; k <= n; k++) {
            row = rows[k]; x = ours["A", row]; y = ours["B", row]; p = plain[row]
            printf "| %s | %s | %s | %s | %s | %s | %s |\n", row, micros(x), micros(y), ratio(y, x), micros(p), ratio(x, p), ratio(y, p)
        }
    }
' "$times"
