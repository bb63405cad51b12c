#!/bin/sh
# The example of docs/REPAIR.md, just as it stands there, with what it prints, as the page shows it.
here=$(cd "$(dirname "$0")" && pwd)
. "$here/common.sh"

show_page docs/REPAIR.md
