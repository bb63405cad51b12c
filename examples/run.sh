#!/bin/sh
# Runs each example, and compares its output with its .out file. The last line is 'N passed, M failed', and the status is 1
# if one differs.
here=$(cd "$(dirname "$0")" && pwd)
"${F11:-$here/../f11}" --help >/dev/null || { echo '0 passed, 1 failed'; exit 1; }
passed=0
failed=0
for expected in "$here"/*.out; do
    name=$(basename "$expected" .out)
    if sh "$here/$name.sh" | diff "$expected" -; then
        echo "$name: as expected"
        passed=$((passed + 1))
    else
        echo "$name: differs"
        failed=$((failed + 1))
    fi
done
echo "$passed passed, $failed failed"
[ $failed -eq 0 ]
