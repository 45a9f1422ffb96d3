# shellcheck shell=bash
#
# For the test scripts beside it, which read it in: finds the archive, knows the machine, counts what is tried, and says the count last.
#
# The archive's folder is the script's first argument; if not given, STABLEPLY_LIB_DIR, or else target/staticlib.
root=$(cd "$(dirname "$0")/.." && pwd)
. "$root/tests/machine.sh"
folder=${1:-${STABLEPLY_LIB_DIR:-$root/target/staticlib}}
if [ ! -f "$folder/libstableply.a" ]; then
    echo "$0: there is no libstableply.a in $folder: run tools/archive in the project's root, or name its folder" >&2
    exit 2
fi
folder=$(cd "$folder" && pwd)
work=$(mktemp -d) || exit 2
trap 'rm -rf "$work"' EXIT

passed=0
failed=0

# try NAME COMMAND...: counts the command's status, and shows what it printed where that is not 0.
try() {
    name=$1
    shift
    if "$@" >"$work/printed" 2>&1; then
        passed=$((passed + 1))
        echo "ok      $name"
    else
        failed=$((failed + 1))
        echo "FAILED  $name"
        cat "$work/printed"
    fi
}

# try_pages LANGUAGE COMMAND: tries the command on each page for newcomers that holds programs in the language; there must be one.
try_pages() {
    find "$root" -maxdepth 2 \( -name README.md -o -name QUICKSTART.md -o -name FROM-BITVEC.md \) \
        -exec grep -l "^\`\`\`$1\$" {} + >"$work/pages"
    try "there are pages with programs in $1" test -s "$work/pages"
    while read -r page; do
        try "programs in $1 of $(basename "$page")" "$2" "$page"
    done <"$work/pages"
}

# The last line, and the script's status.
say_count() {
    echo "$passed passed, $failed failed"
    [ "$failed" -eq 0 ]
}
