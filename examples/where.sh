#!/bin/sh
# Lists the files of a name or pattern in many images, each with the SHA-256 checksum of its bytes, so that equal files are next to each other:
#     examples/where.sh 'NOTES.*' *.dsk
# Each line has the checksum, the image and the path. F11FS names the program, if it is not ./f11fs.
f11fs=${F11FS:-$(cd "$(dirname "$0")/.." && pwd)/f11fs}
pattern=$1
shift
for image; do
    "$f11fs" -q "$image" find "$pattern" | while read -r id path; do
        sum=$("$f11fs" -q "$image" get -b "$id" - | sha256sum)
        printf '%s %s %s\n' "${sum%% *}" "$image" "$path"
    done
done | sort
