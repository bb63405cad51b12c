#!/bin/sh
# The commands of README.md in order, as a user pastes them into a terminal of 80 columns. The first ones print what README.md shows. A date of this run
# is printed as NOW.
here=$(cd "$(dirname "$0")" && pwd)
. "$here/common.sh"

show_page README.md
cp "$top/examples/where.sh" examples/
# shellcheck disable=SC2016 # these are the marks of code
{
    grep -v '^#' page
    sed '1,/^```$/d' "$top/README.md" | sed -n -e 's/^    //p' -e 's/^.*| `\([^`]*\)`$/\1/p' | grep -v '^\./install'
} >pasted
PATH=.:$PATH "$here/terminal.py" <pasted | sed 's/[0-9][0-9]-[A-Z][A-Z][A-Z]-[0-79][0-9] [0-9:]\{8\}/NOW/g'
