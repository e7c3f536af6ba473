#!/bin/bash
# build.sh FOLDER: makes FOLDER/speed, the driver linked with the product of this repository, which is built without proofs. README.md says how.
# FOLDER lies outside the repository. What was made of the same files is not made again.
set -euo pipefail
bench=$(dirname "$(realpath "$0")")
top=$(dirname "$bench")
mkdir -p "$1"
folder=$(realpath "$1")
kit=$(realpath "$(dirname "$(realpath "$(command -v rt)")")/..")
case $folder/ in "$top"/*) echo "build.sh: $folder lies in the repository" >&2; exit 2 ;; esac

# The sum of all files below these ones.
sum_of() {
    find "$@" -type f -not -path '*/out/*' | LC_ALL=C sort | xargs -d '\n' sha256sum | sed "s|$top/||" | sha256sum
}

clang() {
    (exec -a clang "$kit/toolchain/bin/clang" "$@")
}

# A copy of the repository with the glue as one more program. Its line of crates.txt names what its imports name, and what lies below those.
copy() {
    rm -rf "$folder/copy"
    mkdir -p "$folder/copy/crates/bench_glue/src"
    tar -C "$top" --exclude='./crates/*/out' -cf - ./crates ./crates.txt | tar -C "$folder/copy" -xf -
    local glue=$folder/copy/crates/bench_glue/src file
    for file in "$bench"/glue/*.rt.txt; do cp "$file" "$glue/$(basename "$file" .txt)"; done
    sed -n 's/^use \([a-z_0-9]*\)::.*/\1/p' "$glue"/*.rt | sort -u | grep -v -x -e crate -e std -e driver > "$folder/imports"
    awk '
        NR == FNR { imports[NR] = $1; n = NR; next }
        { name = $1; sub(/:$/, "", name); below[name] = substr($0, index($0, ":") + 1) }
        function add(name, count, names, k) {
            if (name in added) return
            added[name] = 1
            count = split(below[name], names)
            for (k = 1; k <= count; k++) add(names[k])
            line = line " " name
        }
        END { for (k = 1; k <= n; k++) add(imports[k]); print "bench_glue:" line }
    ' "$folder/imports" "$top/crates.txt" >> "$folder/copy/crates.txt"
}

# Links to a folder's files, but for those that are named.
links() {
    local from=$1 to=$2 it
    shift 2
    mkdir -p "$to"
    for it in "$from"/*; do case " $* " in *" ${it##*/} "*) ;; *) ln -s "$it" "$to/" ;; esac; done
}

# The module that rt try compiles, as text: a kit whose clang keeps it, and stops there.
module() {
    rm -rf "$folder/kit" "$folder/module.bc"
    links "$kit" "$folder/kit" bin toolchain
    links "$kit/bin" "$folder/kit/bin" rt rtlib.py rattle
    links "$kit/toolchain" "$folder/kit/toolchain" bin
    links "$kit/toolchain/bin" "$folder/kit/toolchain/bin" clang
    cp "$kit/bin/rt" "$kit/bin/rtlib.py" "$folder/kit/bin/"
    cat > "$folder/kit/toolchain/bin/clang" << END
#!/bin/bash
for it in "\$@"; do
    if [[ \$it == *.bc && \$(stat -c %s "\$it") -gt 1000000 ]]; then cp "\$it" "$folder/module.bc"; exit 1; fi
done
exec -a clang "$kit/toolchain/bin/clang" "\$@"
END
    # rt try asks rattle for hints only.
    printf '#!/bin/sh\n' > "$folder/kit/bin/rattle"
    chmod +x "$folder/kit/toolchain/bin/clang" "$folder/kit/bin/rattle"
    (cd "$folder/copy/crates/bench_glue" && "$folder/kit/bin/rt" try) > "$folder/try.log" 2>&1 < /dev/null || true
    if [ ! -s "$folder/module.bc" ]; then cat "$folder/try.log" >&2; exit 1; fi
    clang -S -emit-llvm -O0 -Wno-everything -x ir "$folder/module.bc" -o "$folder/module.ll"
}

# The product as a library. The flags are those of rt run.
product() {
    copy
    module
    python3 "$bench/as_proved.py" "$folder/module.ll" "$folder/product.ll" "$folder"/copy/crates/* "$kit"/rattle/*
    clang --target=x86_64-unknown-linux-gnu -march=x86-64 -O3 -fPIE -ffunction-sections -fdata-sections -Xclang -fmerge-functions \
        -mllvm -mergefunc-use-aliases -mllvm -no-trap-after-noreturn -mllvm -trap-unreachable -mllvm -no-x86-call-frame-opt \
        -mllvm -disable-machine-licm -mllvm -disable-postra-machine-licm -mllvm -sink-common-insts=false --no-default-config \
        -no-canonical-prefixes -fintegrated-cc1 -fno-crash-diagnostics -Wno-everything -c -x ir "$folder/product.ll" -o "$folder/product.o"
    rm -rf "$folder/libproduct.a" "$folder/copy" "$folder/kit"
    ar rcs "$folder/libproduct.a" "$folder/product.o"
    rm -f "$folder"/module.* "$folder"/product.*
}

driver() {
    rustc --edition 2024 -C opt-level=3 -C target-cpu=x86-64-v2 -C codegen-units=1 -C panic=abort "$bench/driver/main.rs" \
        -o "$folder/speed" -L native="$folder" -l static=product -L native="$kit/c" -l static=os_c -l static=libc_c
}

# Does a step, unless it made this file of files with this sum.
unless_made() {
    local step=$1 made=$folder/$2 sum=$3
    if [ -e "$made" ] && [ "$sum" = "$(cat "$folder/$step.sum" 2> /dev/null)" ]; then return; fi
    rm -f "$made"
    "$step"
    echo "$sum" > "$folder/$step.sum"
}
product_sum=$(sum_of "$top/crates" "$top/crates.txt" "$bench/glue" "$bench/build.sh" "$bench/as_proved.py" "$kit/KIT-ID")
unless_made product libproduct.a "$product_sum"
unless_made driver speed "$product_sum $(sum_of "$bench/driver")"
