#!/usr/bin/env bash
# Times `determine` of two programs, one after the other: on the examples, and on one equation of each order from 2 to 6 in 1 to 4
# independent variables. It prints a row for each file, with the least time of five calls of either program in milliseconds.
#     bench/determine.sh OLD NEW
old="$1"
new="$2"
here="$(cd "$(dirname "$0")" && pwd)" || exit 1
room="$(mktemp -d)" || exit 1
trap 'rm -r "$room"' EXIT

# The least user time of five calls.
least() {
    local TIMEFORMAT=%U
    for _ in 1 2 3 4 5; do
        { time "$1" determine "$2" >/dev/null 2>/dev/null; } 2>&1
    done | sort -n | head -1 | awk '{ printf "%.0f", $1 * 1000 }'
}

row() {
    printf '| %s | %s | %s |\n' "$1" "$(least "$old" "$2")" "$(least "$new" "$2")"
}

echo '| Equation | before, ms | after, ms |'
echo '|---|---|---|'
for file in "$here"/../crates/lie_gallery/data/*.lie; do
    row "$(basename "$file" .lie)" "$file"
done

names=(x t y z)
for count in 1 2 3 4; do
    for order in 2 3 4 5 6; do
        high="u_$(printf 'x%.0s' $(seq "$order"))"
        if [ "$count" = 1 ]; then equation="$high = u*u_x"; else equation="u_t = $high + u*u_x"; fi
        printf 'lie 1\nvars %s\ndeps u\neq %s\nend\n' "${names[*]:0:$count}" "$equation" >"$room/file.lie"
        row "\`$equation\` in $count" "$room/file.lie"
    done
done
