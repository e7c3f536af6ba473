#!/bin/bash
# run.sh [WORD]: builds the product of this repository without proofs, unless that was done, measures the rows whose name has the word, and
# prints their table. The status is 1 if the product and plain Rust make other bytes in some row.
# BENCH_FOLDER: where it is built. BENCH_SECONDS: for how long each group of rows is measured at least (1).
# BENCH_PEERS=: other libraries are left out. BENCH_PYTHON: the Python that has them (/usr/bin/python3).
set -euo pipefail
bench=$(dirname "$(realpath "$0")")
word=${1:-}
folder=${BENCH_FOLDER:-${TMPDIR:-/tmp}/bench-$(id -u)-$(basename "$(dirname "$bench")")}
python=${BENCH_PYTHON:-/usr/bin/python3}
nice -n 10 "$bench/build.sh" "$folder"

# Other libraries, where they are installed: what the column is called, the module, the program.
columns=()
peer() {
    if [ "${BENCH_PEERS-yes}" ] && "$python" -c "import $2" 2> /dev/null; then
        "$python" "$bench/peers/$3" "$folder/cases" > "$folder/$3.times" 2> "$folder/$3.log" || cat "$folder/$3.log" >&2
        columns+=("$1=$folder/$3.times")
    fi
}
"$folder/speed" cases "$word" > "$folder/cases"
peer zarr-python zarr zarr_python.py
peer GDAL osgeo.gdal gdal_zarr.py
exec "$folder/speed" table "$word" ${columns[@]+"${columns[@]}"}
