#!/bin/sh
# Serve scripts: list the master directory, look at a file, remove a name and write the image out; then two sessions at once.
here=$(cd "$(dirname "$0")" && pwd)
. "$here/common.sh"

make_volume good.dsk

cat >look <<'END'
LIST 4,4
LOOK 4,4 BADBLK.SYS
STAT $
READ $ 1
END
show cat look
f11 good.dsk look

# A name is removed, and the image with the change goes to another file. IMAGE itself stays as it was.
printf 'REMOVE 4,4 CORIMG.SYS\nLIST 4,4\n' >remove
show cat remove
f11 good.dsk remove --out new.dsk
f11 new.dsk --header 4

# Lines that are refused, and lines that are no commands.
printf 'USER [20,4]\nWRITE 3,3 1 41\nSTAT 9,1\nDELETE $\nstat 4,4\n' >refused
show cat refused
f11 good.dsk refused

# Two sessions, each in a thread of its own.
printf 'STAT 4,4\n' >one
printf 'USER [20,4]\nLOOK 4,4 INDEXF.SYS;-1\n' >two
f11 good.dsk one two
f11 good.dsk one --limit 0 2>&1
