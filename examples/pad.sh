#!/bin/sh
# Pad a short image with zeros and check it again. Some emulators end the file of a disk behind the last byte that was
# written, so that blocks at the end of the volume, still zeros, are not in it.
here=$(cd "$(dirname "$0")" && pwd)
. "$here/common.sh"

# A volume with one more file, A.TXT: header 6, whose pointer maps block 39, which was never written.
make_volume whole.dsk
put whole.dsk 2 0 '\077'
header whole.dsk 6 '\100\006\000\000\000\000\324\200' '\000\000\000\000' '\001\003\002\314\000\000\047\000' '\000'
put whole.dsk 20 4 '\177'
dd if=whole.dsk of=short.dsk bs=1 count=11300 2>/dev/null

f11 short.dsk

# The last block is filled up with zeros.
show dd if=short.dsk of=padded.dsk bs=512 conv=sync
f11 padded.dsk

# The volume has 40 blocks, so one of zeros is put at 39; those between become zeros too.
show dd if=/dev/zero of=padded.dsk bs=512 seek=39 count=1 conv=notrunc
f11 padded.dsk
