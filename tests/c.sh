#!/usr/bin/env bash
# Holds the header, the C example and the archive to each other: all of it compiles as C11 and as C++17 without a warning, the
# example prints what is stored beside it, the canary test finds nothing wrong, and valgrind, on x86-64, sees no error in either.
#
#     tests/c.sh [FOLDER]     FOLDER holds libstableply.a
#
# The last line is 'N passed, M failed'. Needs gcc, g++ and nm for x86-64, and valgrind or, on another machine, qemu-x86_64.
set -u
. "$(dirname "$0")/counted.sh"
archive=$folder/libstableply.a
header=$root/include/stableply.h
example=$root/examples/c/trace.c
stored=$root/examples/c/trace.stdout

c11() { ${cross}gcc -std=c11 -O1 -g -Wall -Wextra -Werror -pedantic -I"$root/include" "$@"; }
cxx17() { ${cross}g++ -std=c++17 -O1 -g -Wall -Wextra -Werror -pedantic -I"$root/include" "$@"; }
prints() { run "$1" >"$work/stdout" && diff "$work/stdout" "$2"; }
watched() { valgrind --quiet --error-exitcode=1 --leak-check=full "$@"; }
same_names() {
    grep -o 'stableply[0-9]*_[a-z_]*(' "$header" | tr -d '(' | sort -u >"$work/declared"
    ${cross}nm --defined-only --extern-only "$archive" | awk '$3 ~ /^stableply/ { print $3 }' | sort -u >"$work/exported"
    diff "$work/declared" "$work/exported"
}

# quick_start PAGE: the page's first program in C prints the text that follows it.
quick_start() {
    awk '$0 == "```" { on = 0 } on { print } $0 == "```c" && !seen { on = seen = 1 }' "$1" >"$work/quick.c"
    awk '$0 == "```" { on = 0 } on { print } $0 == "```c" { seen = 1 } $0 == "```text" && seen { on = 1 }' "$1" >"$work/quick.stdout"
    c11 "$work/quick.c" "$archive" -o "$work/quick" && prints "$work/quick" "$work/quick.stdout"
}

try 'header as C11' c11 -fsyntax-only -x c "$header"
try 'header as C++17' cxx17 -fsyntax-only -x c++ "$header"
try 'header declares what the archive exports' same_names
try 'example compiles as C11' c11 "$example" "$archive" -o "$work/trace"
try 'example compiles as C++17' cxx17 -x c++ "$example" -x none "$archive" -o "$work/trace++"
try 'example from C prints what is stored' prints "$work/trace" "$stored"
try 'example from C++ prints what is stored' prints "$work/trace++" "$stored"
try_pages c quick_start
try 'canary test compiles' c11 "$root"/tests/c/*.c "$archive" -o "$work/canaries"
try 'canary test' run "$work/canaries" 10000 4
if [ "$machine" = x86_64 ]; then
    try 'example under valgrind' watched "$work/trace"
    try 'canary test under valgrind' watched "$work/canaries" 250 0
else
    echo "left out on $machine, where valgrind runs no x86-64 program: example under valgrind, canary test under valgrind"
fi
try 'fields to count compile' c11 "$root/compare/instructions/fields.c" "$archive" -o "$work/fields"
try 'fields to count are accepted' run "$work/fields" store 8 1 64 1 0
try 'rows to count compile' c11 "$root/compare/instructions/rows.c" "$archive" -o "$work/rows"
try 'rows to count are accepted' run "$work/rows" copy_within 8 1
say_count
