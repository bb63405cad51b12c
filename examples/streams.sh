#!/bin/sh
# Where replies, faults and statuses go: each run with its standard output, its standard error and its status apart.
here=$(cd "$(dirname "$0")" && pwd)
. "$here/common.sh"

# Runs f11 with its output to descriptor 4, and shows its streams and its status: run WORD..
run() {
    status=0
    "$program" "$@" </dev/null >&4 2>err || status=$?
    exec 4>&-
    shown
}

# The same, with the command line: apart WORD..
apart() {
    printf '$ f11 %s\n' "$*"
    exec 4>out
    run "$@"
}

# The same, with standard output onto this file: onto FILE WORD..
onto() {
    file=$1
    shift
    printf '$ f11 %s >%s\n' "$*" "$file"
    : >out
    exec 4>"$file"
    run "$@"
}

# The same, with standard output into a pipe that its reader has closed.
into_closed_pipe() {
    printf '$ f11 %s | (closed)\n' "$*"
    : >out
    rm -f pipe
    mkfifo pipe
    : <pipe &
    exec 4>pipe
    wait
    run "$@"
}

shown() {
    sed 's/^/output: /' out
    sed 's/^/error: /' err
    printf 'status: %d\n' "$status"
}

make_volume good.dsk

# An image that is not the sample: header 6 is of another owner, has two pointers and names a next header.
cp good.dsk other.dsk
put other.dsk 8 0 '\027\056\006\000\003\000\001\001\010\020\000\377\200\000'
put other.dsk 8 46 '\100\006\000\000\000\000\324\200\007\000'
put other.dsk 8 94 '\007\000\002\000\001\003\004\314\000\001\026\000\000\000\047\000'
put other.dsk 8 510 '\017\226'
apart other.dsk --header 6
apart --header 6 other.dsk
apart other.dsk --header 2
apart other.dsk --header 7

echo '# the sample'
apart
apart --header 1
apart --header 2
apart --header=5
apart --header 16

echo '# wrong words'
apart --header 0
apart --header 17
apart good.dsk --header x
apart --header
apart --header 1 --header 2
apart --nope
apart good.dsk other.dsk
printf '$ f11 (byte 255)\n'
exec 4>out
run "$(printf '\377')"
printf '$ f11 --header 0 2>/dev/full\n'
status=0
"$program" --header 0 >out 2>/dev/full || status=$?
: >err
shown

echo '# images that cannot be read, or are none'
apart missing.dsk
apart missing.dsk --header 1
mkdir folder
apart folder
apart folder --header 1
dd if=good.dsk of=cut.dsk bs=700 count=1 2>/dev/null
apart cut.dsk
apart cut.dsk --header 1
: >empty.dsk
apart empty.dsk
apart empty.dsk --header 1

echo '# help'
apart --help
apart -h good.dsk

echo '# output that fails'
into_closed_pipe good.dsk
into_closed_pipe --header 1
into_closed_pipe missing.dsk
into_closed_pipe --help
onto /dev/full good.dsk
onto /dev/full good.dsk --header 1
onto /dev/full empty.dsk
onto /dev/full --help

echo '# replies that fail: no image is written'
echo 'CREATE A.TXT 1' >create
into_closed_pipe good.dsk create --out new.dsk
onto /dev/full good.dsk create --out new.dsk
[ ! -e new.dsk ] && echo 'no new.dsk'

echo '# an image that comes through a pipe'
rm -f pipe
mkfifo pipe
cat good.dsk >pipe &
apart pipe create

echo '# no memory for the image: 256 MiB, where 128 may be used'
dd if=/dev/zero of=large.dsk bs=1 count=0 seek=268435456 2>/dev/null
# shellcheck disable=SC3045 # dash and bash have -v
(ulimit -v 131072 && apart large.dsk)
# shellcheck disable=SC3045
(ulimit -v 131072 && apart large.dsk --header 1)
