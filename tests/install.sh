#!/usr/bin/env bash
# Installs the libreloc.a in $RELOC_LIB_DIR under a folder, and builds and runs the examples from the installed copy alone.
set -eu

root=$(cd "$(dirname "$0")/.." && pwd)
out=$(mktemp -d)
trap 'rm -rf "$out"' EXIT
place=$out/staged/opt/reloc
make -s -C "$root" install DESTDIR="$out/staged" PREFIX=/opt/reloc RELOC_LIB_DIR="${RELOC_LIB_DIR:?the folder of libreloc.a}"
diff - <(cd "$place" && find . -type f | sort) <<'FILES'
./include/reloc.h
./lib/libreloc.a
./lib/pkgconfig/reloc.pc
FILES

if command -v pkg-config >/dev/null; then
    ask() { PKG_CONFIG_SYSROOT_DIR=$out/staged PKG_CONFIG_LIBDIR=$place/lib/pkgconfig pkg-config "$@" reloc; }
    flags=$(ask --cflags --libs)
    version=$(ask --modversion)
else
    flags=$(sed -En 's/^(Cflags|Libs): //p' "$place/lib/pkgconfig/reloc.pc" | sed "s|\${prefix}|$place|g" | tr '\n' ' ')
    version=$(sed -n 's/^Version: //p' "$place/lib/pkgconfig/reloc.pc")
fi
cp "$root"/examples/*.c "$out"
cd "$out"
for name in station loader; do
    # shellcheck disable=SC2086
    gcc -std=c99 -Wall -Wextra -Werror -pedantic "$name.c" $flags -o "$name"
    "./$name" | diff "$root/examples/$name.txt" -
    "./$name" | grep -qx "reloc $version"
done
grep -q "^## $version " "$root/CHANGELOG.md" || { echo "install: CHANGELOG.md has no $version"; exit 1; }
make -s -C "$root" uninstall DESTDIR="$out/staged" PREFIX=/opt/reloc
[ -z "$(find "$out/staged" -type f)" ] || { echo "install: uninstall leaves files"; exit 1; }
echo "install: $version, the examples built from the installed copy"
