#!/bin/sh
# Check an image: how much is free in a sound one, and what is wrong with one that is not.
here=$(cd "$(dirname "$0")" && pwd)
. "$here/common.sh"

make_volume good.dsk
f11 good.dsk

# The index bitmap no longer says that header 4, of the master directory, is in use.
cp good.dsk lost.dsk
put lost.dsk 2 0 '\027'
f11 lost.dsk

# A bit of the home block was lost on the way.
cp good.dsk spoiled.dsk
put spoiled.dsk 1 6 '\021'
f11 spoiled.dsk

f11 missing.dsk 2>&1
