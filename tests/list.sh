#!/usr/bin/env bash
# Runs the listing program at its limits and on bad input, and the main command ./list-table: on its samples, with wrong arguments,
# with a table that is refused, and when something has to be proved.
set -eu
root=$(cd "$(dirname "$0")/.." && pwd)
out=$(mktemp -d)
trap 'rm -rf "$out"' EXIT

# the program is proved and built by the main command
"$root/list-table" >/dev/null

# the case $1: for standard input the program prints what the command that follows prints
expect() {
    "$root/crates/list/out/list" >"$out/got"
    "${@:2}" >"$out/want"
    cmp -s "$out/want" "$out/got" || { echo "list: $1: got"; head -n 5 "$out/got"; exit 1; }
}
refused() { expect "$1" printf 'refused\t%d\t%d\n' "$2" "$3"; }

# the listing of $1 offsets 0
offsets() {
    printf 'no\toffset\ttype\tsymbol\taddend\n'
    for ((i = 0; i < $1; i++)); do printf '%d\t0\t-\t-\t-\n' "$i"; done
}
zeros() { head -c "$1" /dev/zero; }
letters() { zeros "$1" | tr '\0' a; }
bitmaps() { for ((i = 0; i < $1; i++)); do printf '\1\0\0\0\0\0\0\0'; done; }

{ echo relr64; zeros 8192; } | expect "1,024 records" offsets 1024
{ echo relr64; zeros 8200; } | refused "1,025 records" 9 0
{ echo relr64; zeros 8; bitmaps 2047; } | expect "16,384 bytes" offsets 1
{ echo relr64; zeros 8; bitmaps 2047; printf 0; } | refused "16,385 bytes" 2 0
{ echo relleb64; zeros 16385; } | refused "16,385 bytes behind the longest line" 2 0
{ echo relr64; zeros 100000; } | refused "100,000 bytes" 2 0
printf '' | refused "an empty input" 1 0
printf relr64 | refused "a first line without its line feed" 1 0
printf 'relr64\r\n' | refused "a carriage return" 1 0
printf 'relr16\n' | refused "an unknown kind" 1 0
{ letters 10000; echo; zeros 8; } | refused "a line of 10,000 bytes" 1 0
{ letters 10000; echo; zeros 20000; } | refused "an unknown kind before a table that is too long" 1 0
printf 'relr32\n\1\0\0\0' | refused "a bitmap before any address" 6 0
printf 'relr32\n\0\0\0' | refused "no whole word" 4 3
printf 'apr1\nAPR' | refused "a cut identifier" 3 0
printf 'apa1\nAPA1\100' | refused "a negative count" 5 4
printf 'apr1\nAPR1\200\200\200\200\020' | refused "a number over 2^32 - 1" 5 8
{ printf 'relleb64\n'; printf '\200%.0s' 1 2 3 4 5 6 7 8 9 10 11; } | refused "a number of eleven bytes" 5 9
printf 'relleb32\n\0\0' | refused "a byte after the last record" 8 1
printf 'apr1\nAPR1\200\0\0' | expect "a padded number" offsets 1
printf 'relleb64\n\1\0\0\177\0' | expect "an addend difference of zero" printf 'no\toffset\ttype\tsymbol\taddend\n0\t0\t0\t0\t0\n'
{ printf re; sleep 0.1; echo lr64; sleep 0.1; zeros 3; sleep 0.1; zeros 5; } | expect "short reads" offsets 1
echo "listing program: ok"

fail() { echo "list-table: $1"; exit 1; }

# the command with the arguments after $1 ends with the status $1
command=$root/list-table
ends() {
    local status=0
    "$command" "${@:2}" >"$out/said" 2>"$out/told" || status=$?
    [ "$status" -eq "$1" ] || { cat "$out/told"; fail "status $status for ${*:2}"; }
}

ends 0
diff "$root/samples/listing" "$out/said" || fail "the samples"
[ ! -s "$out/told" ] || fail "nothing has to be proved, and something is told"
ends 0 apa1 "$root/samples/pairs.apa1"
ends 1 relr64 "$root/samples/bitmap-first.relr64"
printf 'refused\t6\t0\n' | cmp - "$out/said" || fail "the text of a refusal"
ends 0 --help
grep -q '^usage:' "$out/said" || fail "--help"

# A wrong kind is told before anything is proved: no rt is called.
mkdir "$out/bin"
printf '#!/bin/sh\necho called >"%s/called"\n' "$out" >"$out/bin/rt"
chmod +x "$out/bin/rt"
PATH=$out/bin:$PATH ends 2 relr16 "$root/samples/pairs.apa1"
grep -q "no kind 'relr16'" "$out/told" || fail "a wrong kind"
PATH=$out/bin:$PATH ends 2 apa1 "$out/nothing"
PATH=$out/bin:$PATH ends 2 apa1
[ ! -e "$out/called" ] || fail "proved before the arguments were looked at"

# A copy in which the program has changed: it is proved again, over the libraries that are proved here, and that is told, a line a crate.
mkdir "$out/copy"
cp -a "$root/list-table" "$root/crates.txt" "$root/crates" "$out/copy"
rm "$out/copy/crates/list/out/list"
echo '// changed' >>"$out/copy/crates/list/src/main.rt"
command=$out/copy/list-table
ends 0 apa1 "$root/samples/pairs.apa1"
sed 's/([0-9]* s)/(N s)/' "$out/told" | diff - <(
    echo "proving and building the program, once; it takes some minutes"
    echo "list proved (N s)"
) || fail "what is told while it proves"
echo "list-table: ok"
