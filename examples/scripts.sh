#!/bin/sh
# The commands of docs/SCRIPTS.md, just as they stand there, with what they print.
here=$(cd "$(dirname "$0")" && pwd)
. "$here/common.sh"

f11() {
    "$program" "$@"
}
sed -n '/^## Try it/,/^## The language/s/^    //p' "$top/docs/SCRIPTS.md" | sed 's/ *# .*//' >commands
while read -r command; do
    printf '$ %s\n' "$command"
    eval "$command" </dev/null
done <commands
