#!/bin/sh
# Scripts and words that nobody would write, images that are refused, and where an image is written to.
here=$(cd "$(dirname "$0")" && pwd)
. "$here/common.sh"
# One line for each run: f11 shows what comes on standard error, too.
exec 2>&1
make_volume good.dsk

echo '# a megabyte with no line feed, a megabyte of line feeds, and a byte more'
dd if=/dev/zero bs=1024 count=1024 2>/dev/null | tr '\000' A >long
f11 good.dsk long
tr A '\n' <long >feeds
f11 good.dsk feeds
{ cat long; printf A; } >longer
f11 good.dsk longer
f11 missing.dsk longer
f11 <longer

echo '# every byte on lines of their own, behind a command'
byte=0
while [ $byte -lt 256 ]; do
    # shellcheck disable=SC2059 # the byte is written as the format's escape
    printf "STAT 4,4\\$(printf %03o $byte)\n"
    byte=$((byte + 1))
done >bytes
"$program" good.dsk bytes | sed 's/^BAD .*/BAD/' | LC_ALL=C sort | uniq -c | awk '{ $1 = $1; print }'

echo '# every byte but the line feed, on one line'
printf '%b' "$(awk 'BEGIN { for (i = 0; i < 256; i++) if (i != 10) printf "\\0%03o", i }')" >all
f11 good.dsk all

echo '# numbers of a thousand digits'
ones=$(printf '%1000s' '' | tr ' ' 1)
printf '%s\n' "STAT $ones,1" "STAT 1,$ones" "CREATE A.TXT $ones" "CREATE A.TXT;$ones 1" "READ 4,4 $ones" "USER [$ones,1]" >digits
f11 good.dsk digits

echo '# nine scripts, a folder, a file that is not there, one file twice'
echo 'STAT 1,1' >look
f11 good.dsk look look look look look look look look look
mkdir folder
f11 good.dsk folder
f11 good.dsk missing
f11 good.dsk look look
: >nothing
f11 good.dsk nothing

echo '# words that do not go together, limits and stamps that are none'
f11 good.dsk look --header 1
f11 good.dsk --out new.dsk --header 1
f11 good.dsk look --limit 65537
f11 good.dsk look --limit 1
f11 good.dsk look --stamp 1JAN80000000
f11 good.dsk look --stamp 01jan80000000
f11 good.dsk look --stamp 99ZZZ99999999

echo '# a refused image: nothing is written, and what was there stays'
printf 'CREATE A.TXT 1\n' >create
cp good.dsk refused.dsk
put refused.dsk 1 58 '\000'
echo kept >kept
f11 refused.dsk create --out kept
show cat kept
f11 refused.dsk create --out new.dsk
[ ! -e new.dsk ] && echo 'no new.dsk'

echo '# the image is the file that is written, and files that cannot be written'
f11 good.dsk create --out good.dsk
f11 good.dsk
f11 good.dsk create --out folder
f11 good.dsk create --out missing/new.dsk
f11 good.dsk create --out /dev/full
