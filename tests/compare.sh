#!/usr/bin/env bash
# The library beside bitvec and the rules: the Rust of the oracle is the published text, deliberately wrong answers are found, on some 60
# million requests the three agree, and the benchmark runs in its quick form, all of whose contestants have to do the same.
set -u
. "$(dirname "$0")/counted.sh"
cd "$root" || exit 2

build() {
    (cd compare && STABLEPLY_LIB_DIR=$folder cargo build --release --offline --locked)
}
# program NAME ARGUMENTS...: runs one of compare's programs.
program() {
    (cd compare && run "target/${cargo_folder}release/$1" "${@:2}")
}

try "the oracle is the published Rust" bash oracle/check.sh
try "the comparison builds" build
try "wrong answers are found" program differential self-test 1
try "library, bitvec and rules agree" program differential 5000000 1
try "the stored answers are bitvec's" program vectors check ../vectors/answers.bin 4320 1
try "the benchmark runs" program bench quick
say_count
