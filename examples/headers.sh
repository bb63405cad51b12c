#!/bin/sh
# Look at the first headers of an image, which f11 prints without checking the rest of it.
here=$(cd "$(dirname "$0")" && pwd)
. "$here/common.sh"

make_volume good.dsk
for number in 1 2 3 4 5 6; do
    f11 good.dsk --header $number
done

# The first fault of a header is named: its sum; its number; its level; its areas; the format of its pointers.
spoil() {
    cp good.dsk bad.dsk
    put bad.dsk 5 "$1" "$2"
    [ "$1" -eq 510 ] || seal bad.dsk 5
    f11 bad.dsk --header 3
}
spoil 510 '\000'
spoil 2 '\007'
spoil 6 '\002'
spoil 0 '\026'
spoil 100 '\001'
spoil 98 '\002'

# The home block is looked for at block 1, and then at 256, 512 and so on.
cp good.dsk bad.dsk
put bad.dsk 1 6 '\021'
f11 bad.dsk --header 1
