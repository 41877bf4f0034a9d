#!/usr/bin/env bash
# Runs the Rust tests of the library under valgrind, with the libreloc.a in $RELOC_LIB_DIR: of the crates named, or of the wrapper and
# the comparison with the reference, which takes some minutes. The gate names the wrapper; the C examples run under valgrind in c.sh.
# It fails where no test ran.
set -euo pipefail

root=$(cd "$(dirname "$0")/.." && pwd)
[ -f "${RELOC_LIB_DIR:?the folder of libreloc.a}/libreloc.a" ] || { echo "valgrind: no libreloc.a in $RELOC_LIB_DIR"; exit 1; }
[ $# -gt 0 ] || set -- bindings/rust tests/differential
for crate in "$@"; do
    cd "$root/$crate"
    built=$(cargo test --offline --no-run 2>&1) || { echo "$built"; exit 1; }
    mapfile -t programs < <(sed -n 's/^ *Executable .* (\(.*\))$/\1/p' <<<"$built")
    passed=0
    for program in "${programs[@]}"; do
        said=$(valgrind --error-exitcode=9 -q "$program" --test-threads=1 2>&1) || { echo "$said"; exit 1; }
        passed=$((passed + $(sed -n 's/^test result: ok\. \([0-9]*\) passed.*/\1/p' <<<"$said")))
    done
    [ "$passed" -gt 0 ] || { echo "valgrind: no test of $crate ran"; exit 1; }
    echo "valgrind: $crate: $passed tests, nothing reported"
done
