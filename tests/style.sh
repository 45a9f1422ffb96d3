#!/usr/bin/env bash
# What is not Rattle, in its layout and without a remark: the Rust as rustfmt has it and clippy likes it, the scripts as shellcheck likes them, and
# all Cargo.toml files alike. bitvec's own text is left as it was published, and with it the crate that it is compiled in.
#
#     tests/style.sh [FOLDER]     FOLDER holds libstableply.a and libknown.a, which the crates' build scripts look for
#
# The last line is 'N passed, M failed'. Needs cargo with fmt and clippy, shellcheck and git.
set -u
. "$(dirname "$0")/counted.sh"
cd "$root" || exit 2
export STABLEPLY_LIB_DIR=$folder

# in_folder FOLDER COMMAND...
in_folder() { (cd "$1" && "${@:2}"); }
# The stand-ins for what bitvec leans on.
standins=(-p funty -p radium -p tap -p wyz)

try 'layout of rust' in_folder rust cargo fmt --check
try 'layout of compare' in_folder compare cargo fmt --check
try "layout of the oracle's stand-ins" in_folder oracle cargo fmt --check "${standins[@]}"

# readable: no line of a source or of a definition is wider than a screen. (A character is one, however many bytes it has.)
readable() {
    local files
    mapfile -t files < <(git ls-files --cached --others --exclude-standard 'crates/*/src/*' 'crates/*/specs/*' 'widths/*/src/*' 'widths/*/specs/*')
    [ ${#files[@]} -gt 0 ] || { echo 'no source is found'; return 1; }
    ! LC_ALL=C.UTF-8 grep -nE '^.{161}' "${files[@]}"
}
try 'no line above 160 characters' readable

# remarks FOLDER WORDS...: clippy has none on what the words choose.
remarks() { in_folder "$1" cargo clippy --quiet --offline --locked "${@:2}" -- -D warnings; }
try 'clippy on rust' remarks rust --all-targets
try 'clippy on rust without its features' remarks rust --no-default-features
try 'clippy on compare' remarks compare --release --all-targets
try "clippy on the oracle's stand-ins" remarks oracle "${standins[@]}"

# described MANIFEST: it has what every crate says of itself.
described() {
    local line
    for line in 'edition = "2021"' 'rust-version = "1.85"' 'license = "MIT"' 'publish = false'; do
        grep -qFx "$line" "$1" || { echo "no line $line"; return 1; }
    done
    grep -qE '^description = ".+"$' "$1" || { echo 'no description'; return 1; }
    [ -f "$(dirname "$1")/$(sed -nE 's/^readme = "(.+)"$/\1/p' "$1")" ] || { echo 'its readme is not there'; return 1; }
}
while read -r manifest; do
    try "what $manifest says" described "$manifest"
done < <(git ls-files --cached --others --exclude-standard | grep -E '(^|/)Cargo\.toml$' | xargs grep -lFx '[package]')

# Those that others read in are seen with them.
while read -r script; do
    try "shellcheck on $script" shellcheck --check-sourced "$script"
done < <(git ls-files --cached --others --exclude-standard | xargs awk 'FNR == 1 && /^#!.*[ \/](ba)?sh$/ { print FILENAME }')
say_count
