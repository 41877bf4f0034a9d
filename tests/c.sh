#!/usr/bin/env bash
# The header and the C programs against the libreloc.a in $RELOC_LIB_DIR: both languages take them without a warning, an answer that is
# not looked at gets one, the header's version, numbers, byte orders, settings and limits are the library's, and the examples
# print their .txt files.
set -eu

lib=${RELOC_LIB_DIR:?the folder of libreloc.a}/libreloc.a
root=$(cd "$(dirname "$0")/.." && pwd)
out=$(mktemp -d)
trap 'rm -rf "$out"' EXIT
strict=(-Wall -Wextra -Werror -pedantic -I "$root/include")
languages=("gcc -std=c99" "gcc -std=c11" "gcc -std=c2x" "g++ -x c++ -std=c++11" "g++ -x c++ -std=c++17")

printf '#include "reloc.h"\nint main(void) { reloc_version(); return 0; }\n' >"$out/unseen.c"
for language in "${languages[@]}"; do
    for file in "$root"/examples/*.c "$root/tests/header.c"; do
        $language "${strict[@]}" -fsyntax-only "$file"
    done
    if $language "${strict[@]}" -c "$out/unseen.c" -o /dev/null 2>"$out/said"; then
        echo "$language: no warning of an answer that is not looked at"
        exit 1
    fi
    grep -q 'unused-result' "$out/said" || { cat "$out/said"; exit 1; }
done
echo "header: ok as ${languages[*]##* }"

# builds $1 and runs it, the second time under valgrind if that is here; leaves what it prints in $out/printed
run() {
    gcc -std=c99 "${strict[@]}" "$1" "$lib" -o "$out/program"
    "$out/program" >"$out/printed" || { cat "$out/printed"; exit 1; }
    if command -v valgrind >/dev/null; then
        valgrind --error-exitcode=9 -q "$out/program" >/dev/null
    else
        echo "valgrind not found"
    fi
}

run "$root/tests/header.c"
echo "header: version, numbers, byte orders, settings and limits are the library's"
for name in station loader; do
    run "$root/examples/$name.c"
    diff "$root/examples/$name.txt" "$out/printed"
    echo "$name: ok"
done
