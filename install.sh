#!/bin/sh
# Installs the proved library for C and Rust: PREFIX/lib/librikzord.a, PREFIX/include/rikzord.h, PREFIX/lib/pkgconfig/rikzord.pc and, where `cargo` is there,
# the command PREFIX/bin/rikzord. It takes target/staticlib/librikzord.a, which `tools/staticlib rikzord` writes.
#
#   install.sh PREFIX                 for example install.sh "$HOME/.local"
#   install.sh PREFIX --library       the library alone, without the command
set -eu
usage() {
    echo "usage: install.sh PREFIX [--library]" >&2
    exit 2
}
[ $# -ge 1 ] && [ $# -le 2 ] || usage
case $1 in -*) usage ;; esac
[ "${2:---library}" = --library ] || usage
here=$(cd "$(dirname "$0")" && pwd)
library=$here/target/staticlib/librikzord.a
if [ ! -f "$library" ]; then
    echo "install.sh: no $library; \`tools/staticlib rikzord\` writes it" >&2
    exit 1
fi
mkdir -p "$1/lib/pkgconfig" "$1/include"
prefix=$(cd "$1" && pwd)
version=$(sed -n 's/^version = "\(.*\)"$/\1/p' "$here/rust/Cargo.toml")
cp "$library" "$prefix/lib/librikzord.a"
cp "$here/include/rikzord.h" "$prefix/include/rikzord.h"
sed -e "s|@PREFIX@|$prefix|" -e "s|@VERSION@|$version|" "$here/rikzord.pc.in" > "$prefix/lib/pkgconfig/rikzord.pc"
echo "$prefix/lib/librikzord.a, $prefix/include/rikzord.h, $prefix/lib/pkgconfig/rikzord.pc"
[ $# -eq 1 ] || exit 0
if ! command -v cargo > /dev/null; then
    echo "no cargo: the command is left out"
    exit 0
fi
(cd "$here/rust" && cargo build --release --quiet --bin rikzord)
mkdir -p "$prefix/bin"
cp "$here/rust/target/release/rikzord" "$prefix/bin/rikzord"
echo "$prefix/bin/rikzord"
