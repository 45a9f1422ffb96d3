#!/usr/bin/env bash
# How many instructions an exported call takes, of fields and of bits and rows, by callgrind, or on another machine than x86-64 by the emulator:
# the same on every run, whatever else the machine does. Wants valgrind or qemu-x86_64, a C compiler for x86-64, and the library that
# `tools/archive` makes.
#
#     compare/instructions/count.sh [FOLDER]     FOLDER holds libstableply.a; target/staticlib unless said otherwise
set -eu
root=$(cd "$(dirname "$0")/../.." && pwd)
folder=$(cd "${1:-$root/target/staticlib}" && pwd)
cd "$root/compare/instructions"
. "$root/tests/machine.sh"
room=$(mktemp -d)
trap 'rm -rf "$room"' EXIT
for program in fields rows; do
    ${cross}gcc -O2 -no-pie -I "$root/include" $program.c "$folder/libstableply.a" -o "$room/$program"
done

# The instructions of all calls of a loop of a program, without the loop's own.
if [ "$machine" = x86_64 ]; then
    in_calls() { # PROGRAM LOOP ARGUMENTS
        local loop=$2
        valgrind --tool=callgrind --callgrind-out-file="$room/out" "$room/$1" "${@:3}" 2>/dev/null || return 1
        in_loop() { callgrind_annotate --threshold=100 "$1" "$room/out" | awk -v loop=":$loop" 'index($0, loop) { gsub(",", "", $1); print $1; exit }'; }
        echo $(($(in_loop --inclusive=yes) - $(in_loop --inclusive=no)))
    }
else
    # The emulator, told (by both names of that) to take one instruction at a time, writes a line with the address of each. What is not in the
    # loop, from its first instruction to its return to main, is of the calls. Addresses have 16 digits, so that they compare as texts.
    in_calls() { # PROGRAM LOOP ARGUMENTS
        QEMU_SINGLESTEP=1 QEMU_ONE_INSN_PER_TB=1 qemu-x86_64 -d exec,nochain -D "$room/out" "$room/$1" "${@:3}" || return 1
        awk -F / -v loop="$(ends "$1" "$2")" -v main="$(ends "$1" main)" '
            function within(ends) { return $2 "" >= substr(ends, 1, 16) && $2 "" < substr(ends, 18) }
            within(loop) { inside = 1; next }
            within(main) { inside = 0 }
            { calls += inside }
            END { print calls }' "$room/out"
    }
    # The first address of a program's function, and the one after its last.
    ends() { # PROGRAM FUNCTION
        local address size
        read -r address size < <(${cross}nm -S "$room/$1" | awk -v name="$2" '$4 == name { print $1, $2 }')
        printf '%s %016x' "$address" $((0x$address + 0x$size))
    }
fi

# The instructions of one call: those of all through their number. The loop is named after the call and the width.
count() { # PROGRAM CALLS JOB WIDTH ARGUMENTS
    local all
    all=$(in_calls "$1" "${3}s$4" "${@:3}") || { echo "refused: ${*:3}" >&2; exit 1; }
    awk -v all="$all" -v calls="$2" 'BEGIN { printf "%.1f", all / calls }'
}

orders=(Lsb0 Msb0) significances=(le be) signs=(u i)
echo '| W | order | field | load | store |'
echo '|---|---|---|---|---|'
for width in 8 64; do
    for order in 0 1; do
        for k in 8 64; do
            for significance in 0 1; do
                for sign in 0 1; do
                    loaded=$(count fields 1024 load $width $order $k $significance $sign) stored=-
                    [ "$sign" = 1 ] || stored=$(count fields 1024 store $width $order $k $significance $sign)
                    echo "| $width | ${orders[order]} | ${signs[sign]}$k ${significances[significance]} | $loaded | $stored |"
                done
            done
        done
    done
done

echo
echo '| call | W = 8, Lsb0 | W = 8, Msb0 | W = 64, Lsb0 | W = 64, Msb0 |'
echo '|---|---|---|---|---|'
for call in read_bit write_bit copy_from copy_within boolean swap equal first_one last_one first_zero last_zero; do
    echo "| $call | $(count rows 256 $call 8 0) | $(count rows 256 $call 8 1) | $(count rows 256 $call 64 0) | $(count rows 256 $call 64 1) |"
done
