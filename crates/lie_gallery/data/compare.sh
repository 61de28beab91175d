#!/usr/bin/env bash
# Runs `analyse` on each example and compares what is printed with its report, byte for byte.
#     crates/lie_gallery/data/compare.sh PROGRAM
program="$1"
here="$(cd "$(dirname "$0")" && pwd)" || exit 1
found="$(mktemp)" || exit 1
trap 'rm "$found"' EXIT

passed=0
failed=0
for file in "$here"/*.lie; do
    name="$(basename "$file" .lie)"
    if "$program" analyse "$file" >"$found" && cmp "$found" "$here/reports/$name.txt"; then
        passed=$((passed + 1))
    else
        echo "$name failed"
        failed=$((failed + 1))
    fi
done
echo "$passed passed, $failed failed"
test "$failed" = 0
