#!/usr/bin/env bash
# Makes target/native/libNAME.a for an Arm machine, for timing and for long runs there. Such an archive is no product: what is shipped is for x86-64.
#
# It runs `rt lib` of a kit for that machine with a compiler that keeps the module it is given, and compiles that module once more for the machine at
# hand, by the same compiler at the same level.
#
#     compare/native.sh [NAME..]     stableply and known unless said otherwise
#
# Then, in compare/: STABLEPLY_LIB_DIR=../target/native CARGO_TARGET_DIR=target/native cargo build --release --offline
set -eu
cd "$(dirname "$0")/.."
machine=$(uname -m)
[ "$machine" != x86_64 ] || { echo 'this machine runs the archives of tools/archive as they are' >&2; exit 2; }
kit=$(dirname "$(dirname "$(readlink -f "$(command -v rt)")")")
room=$(mktemp -d)
trap 'rm -rf "$room"' EXIT

# A kit like the given one, whose compiler keeps the module.
tools=toolchain
mkdir -p "$room/kit/$tools/bin"
links() { # FOLDER LEFT-OUT
    for part in "$kit/$1"/*; do
        [ "${part##*/}" = "$2" ] || [ -e "$room/kit/$1/${part##*/}" ] || ln -s "$part" "$room/kit/$1/"
    done
}
cp -r "$kit/bin" "$room/kit/bin"
links . toolchain
links "$tools" bin
links "$tools/bin" clang
cat >"$room/kit/$tools/bin/clang" <<WRAPPER
#!/bin/sh
for word; do case \$word in *.bc) cp "\$word" "$room/module.bc" ;; esac; done
exec "$kit/$tools/bin/clang" "\$@"
WRAPPER
chmod +x "$room/kit/$tools/bin/clang"

mkdir -p target/native
[ $# -gt 0 ] || set -- stableply known
for crate; do
    part=$crate
    [ "$crate" != stableply ] || part=stableply_c
    (cd "crates/$part" && "$room/kit/bin/rt" lib) | tail -n 1
    "$kit/$tools/bin/clang" --target="$machine-unknown-linux-gnu" -O3 -fPIC -ffunction-sections -fdata-sections -Wno-override-module \
        -c -x ir "$room/module.bc" -o "$room/$crate.o" 2>/dev/null
    rm -f "target/native/lib$crate.a"
    "$kit/$tools/bin/llvm-ar" rcs "target/native/lib$crate.a" "$room/$crate.o"
done
