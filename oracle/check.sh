#!/bin/sh
# Holds the oracle to bitvec 1.1.1's published text: the files of published.sha256
# by their checksums, the excerpts in bitvec/src/slice.rs line by line against
# given/ (documentation and attributes aside).
cd "$(dirname "$0")" || exit 2
sha256sum --check --quiet published.sha256 || exit 1
echo "$(wc -l < published.sha256) files are the published ones"

# The lines of a text that are neither documentation nor an attribute.
plain() { grep -vE '^[[:space:]]*(///|#\[)'; }

# The item of slice.rs that follows line $1, from its `fn` or `struct` to its closing brace.
excerpt() {
	awk -v marker="$1" '
		NR > marker && !inside && /(^|[[:space:]])(fn|struct) / { match($0, /^[[:space:]]*/); closing = substr($0, 1, RLENGTH) "}"; inside = 1 }
		inside { print }
		inside && $0 == closing { exit }
	' bitvec/src/slice.rs
}

work=$(mktemp -d) || exit 2
trap 'rm -rf "$work"' EXIT
grep -nE '^[[:space:]]*// (slice|api)\.rs [0-9]+-[0-9]+$' bitvec/src/slice.rs |
	sed -E 's/^([0-9]+):[[:space:]]*\/\/ ([a-z.]+) ([0-9]+)-([0-9]+)$/\1 \2 \3 \4/' > "$work/markers"
differ=0
while read -r marker file first last; do
	excerpt "$marker" | plain > "$work/ours"
	sed -n "${first},${last}p" "given/$file" | plain > "$work/theirs"
	if [ ! -s "$work/ours" ] || ! cmp -s "$work/ours" "$work/theirs"; then
		echo "differs: bitvec/src/slice.rs line $marker, $file $first-$last"
		differ=1
	fi
done < "$work/markers"
[ "$differ" = 0 ] && [ -s "$work/markers" ] || exit 1
echo "$(wc -l < "$work/markers") excerpts are the published lines"
