#!/usr/bin/env bash
# Builds, tests and documents the Rust crate without a network, holds its example to the output stored for the C one, and tries
# what its build script does where the archive is there, is not, or can be made.
#
#     tests/rust.sh [FOLDER]     FOLDER holds libstableply.a
#
# The last line is 'N passed, M failed'. Needs cargo and a C linker for x86-64.
set -u
. "$(dirname "$0")/counted.sh"
unset STABLEPLY_LIB_DIR

# in_crate COMMAND...: runs it in the crate's folder, on the archive named.
in_crate() { (cd "$root/rust" && STABLEPLY_LIB_DIR=$folder "$@"); }
documented() { in_crate env RUSTDOCFLAGS='-D warnings' cargo doc --offline --locked --no-deps --document-private-items; }
example_prints() {
    in_crate cargo run --quiet --offline --locked --example trace >"$work/stdout" && diff "$work/stdout" "$root/examples/c/trace.stdout"
}

try 'builds without a warning' in_crate env RUSTFLAGS='-D warnings' cargo build --offline --locked --all-targets --target-dir "$work/strict"
try 'tests and doc tests' in_crate cargo test --offline --locked
try 'documentation without a warning' documented
try 'example prints what is stored for the C one' example_prints

# page_runs PAGE: the page's programs in Rust run.
page_runs() {
    awk '$0 == "```rust" { on = 1 } on { print } $0 == "```" { on = 0 }' "$1" >"$work/programs.md"
    rustdoc --test --edition 2021 "${rustdoc_words[@]}" "$work/programs.md" --extern stableply="$work/strict/${cargo_folder}debug/libstableply.rlib"
}
try_pages rust page_runs

# project NAME: a clean checkout with nothing built, in which a command `rt` is found only if the case puts it there.
project() {
    project=$work/$1
    mkdir -p "$project/bin" "$project/target" "$project/tools" "$project/crates/stableply_c"
    cp "$root/tools/archive" "$project/tools/"
    for command in cargo rustc rustdoc; do
        ln -s "$(command -v "$command")" "$project/bin/$command"
    done
    echo 'stableply_c staticlib:' >"$project/crates.txt"
    (cd "$root" && tar -cf - --exclude=rust/target rust compare/model) | tar -xf - -C "$project"
}
# built: builds the case's crate; what it says is left in a file.
built() { (cd "$project/rust" && PATH=$project/bin:/usr/bin:/bin cargo build --offline --locked >"$project/said" 2>&1); }
# refused WORDS: the build fails, and says these words.
refused() {
    if built; then
        echo 'the build did not fail'
        return 1
    fi
    grep -F -- "$1" "$project/said" || { cat "$project/said"; return 1; }
}
# rt_does COMMANDS: puts a command `rt` on the path that notes its arguments and its folder.
rt_does() {
    printf '#!/bin/sh\necho "$@ in $(pwd -P)" >"%s/asked"\n%s\n' "$project" "$1" >"$project/bin/rt"
    chmod +x "$project/bin/rt"
}
makes_it() { built && grep -Fx "lib in $(cd "$project/crates/stableply_c" && pwd -P)" "$project/asked"; }
links_named_folder() { STABLEPLY_LIB_DIR=$folder built; }
refuses_named_folder() { STABLEPLY_LIB_DIR=$project refused "STABLEPLY_LIB_DIR names $project, and there is no libstableply.a in it."; }

project no-archive-no-rt
try 'without the archive and rt, says what to run' refused "Run \`tools/archive\` in $project, or set STABLEPLY_LIB_DIR"
try 'finds the archive in the folder named' links_named_folder
try 'says so where the folder named has none' refuses_named_folder

project archive-there
mkdir "$project/target/staticlib"
cp "$folder/libstableply.a" "$project/target/staticlib/"
rt_does 'exit 1'
try 'finds the archive in target/staticlib, and asks rt for nothing' built
try 'rt was not asked' test ! -e "$project/asked"

project rt-makes-it
rt_does "mkdir -p out && cp '$folder/libstableply.a' out/libstableply_c.a"
try 'has rt make the archive' makes_it

project rt-fails
rt_does 'echo "rt: stableply is not proved"; exit 1'
try 'shows what rt printed where it failed' refused 'rt: stableply is not proved'
try 'says what to run where rt failed' refused "\`tools/archive\` did not make it"

project not-the-root
rm "$project/tools/archive"
rt_does 'exit 0'
try 'outside the project, asks for the folder' refused "is not the project's root, where it could be made. Set STABLEPLY_LIB_DIR"

say_count
