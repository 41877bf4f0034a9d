#!/usr/bin/env bash
# The library against the reference on the corpus and at the limits, with the libreloc.a in $RELOC_LIB_DIR: one test at a time, each
# program in at most 8 GiB of memory.
set -eu

: "${RELOC_LIB_DIR:?the folder of libreloc.a}"
cd "$(dirname "$0")/differential"
cargo test --offline --quiet --no-run
ulimit -v $((8 * 1024 * 1024))
cargo test --offline --quiet -- --test-threads=1
