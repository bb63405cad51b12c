#!/bin/sh
# Make a file on a volume, write text into it, save the volume, and read the text back from there.
here=$(cd "$(dirname "$0")" && pwd)
. "$here/common.sh"

# No words but --out: the sample volume, as it is.
f11 --out disk.dsk

# $ is the file that was made last. A block is written in hex: this is what `printf 'Hello, disk\r\n' | od -An -v -tx1 | tr -d ' '` prints.
cat >./write <<'END'
CREATE HELLO.TXT;1 1
WRITE $ 1 48656c6c6f2c206469736b0d0a
ENTER 4,4 HELLO.TXT $
END
show cat write
f11 disk.dsk write --out new.dsk

# The saved volume is checked whole and read. The name leads to the file.
cat >./read <<'END'
LIST 4,4
LOOK 4,4 HELLO.TXT
STAT $
READ $ 1
END
show cat read
f11 new.dsk read
f11 new.dsk --header 6


# disk.dsk is as it was; and the image that is read may be the one that is written.
f11 disk.dsk
printf 'LOOK 4,4 HELLO.TXT\nDELETE $\nREMOVE 4,4 HELLO.TXT\n' >delete
show cat delete
f11 new.dsk delete --out new.dsk
f11 new.dsk

# Two sessions at once, each in a thread of its own, on one file each.
f11 disk.dsk write --out two.dsk
printf 'WRITE 6,1 1 4f6e65\nREAD 6,1 1\n' >one
printf 'USER [20,4]\nLOOK 4,4 HELLO.TXT\nSTAT 4,4\nWRITE $ 1 00\n' >two
show cat one
show cat two
f11 two.dsk one two

# Files that are made get the date and time of --stamp: of the revision and of the creation, 26 bytes of the header's block.
f11 disk.dsk write --stamp 24DEC76180000 --out stamped.dsk
dd if=stamped.dsk bs=1 skip=$((512 * 8 + 58)) count=26 2>/dev/null >stamps
echo >>stamps
show cat stamps
