#!/bin/sh
# Runs the proved program `inspect` on every bundle of make.py and compares what it prints.
# First: rt ci, or rt run in crates/inspect
top=$(cd "$(dirname "$0")/../.." && pwd)
work=$(mktemp -d)
trap 'rm -rf "$work"' EXIT
python3 "$top/tests/inspect/make.py" "$work" || exit 1
passed=0
failed=0
for bundle in "$work"/*.bundle; do
    name=$(basename "$bundle" .bundle)
    "$top/crates/inspect/out/inspect" < "$bundle" > "$work/printed" 2>&1
    if cmp -s "$work/$name.expected" "$work/printed"; then
        passed=$((passed + 1))
        echo "ok    $name: $(tr '\n' ';' < "$work/printed")"
    else
        failed=$((failed + 1))
        echo "WRONG $name: expected $(tr '\n' ';' < "$work/$name.expected") printed $(tr '\n' ';' < "$work/printed")"
    fi
done
echo "$passed passed, $failed failed"
[ "$failed" -eq 0 ] && [ "$passed" -gt 0 ]
