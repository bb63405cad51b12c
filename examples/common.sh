# shellcheck shell=sh disable=SC2154 # a script that reads this file sets here
# What the examples share: a folder that goes away at the end, f11 as a command that shows itself, and a small volume.
# A script sets `here` to its own folder before it reads this file.

top=$(cd "$here/.." && pwd)
program=${F11:-$top/f11}
scratch=${TMPDIR:-/tmp}/f11-example.$$
mkdir "$scratch" || exit 1
trap 'rm -rf "$scratch"' EXIT
cd "$scratch" || exit 1

# Shows a command line of f11, runs it, and shows its status where that is not 0.
f11() {
    printf '$ f11 %s\n' "$*"
    status=0
    "$program" "$@" || status=$?
    [ $status -eq 0 ] || printf '(status %d)\n' "$status"
}

# Shows a command line, and runs it.
show() {
    printf '$ %s\n' "$*"
    "$@" 2>/dev/null
}

# show_page PAGE: runs the commands of the first block of a page, and shows each with what it prints, as comments, as the page does.
show_page() {
    printf '#!/bin/sh\nexec "%s" "$@"\n' "${F11FS:-$top/f11fs}" >f11fs
    chmod +x f11fs
    mkdir examples
    cp "$top/examples/sample.dsk" examples/
    # shellcheck disable=SC2016 # these are the marks of a block
    sed -n '/^```sh$/,/^```$/p' "$top/$1" | sed '/^```/d' >page
    grep -v '^#' page | while read -r command; do
        printf '%s\n' "$command"
        eval "PATH=.:\$PATH; $command" </dev/null | sed 's/^/# /; s/ $//'
    done >printed
    cat printed
    diff page printed >/dev/null || echo "$1 shows other lines"
}

# put IMAGE LBN PLACE BYTES: puts bytes, in the form of printf, at a place of a block.
put() {
    # shellcheck disable=SC2059 # the bytes are a format
    printf "$4" | dd of="$1" bs=1 seek=$((512 * $2 + $3)) conv=notrunc 2>/dev/null
}

# seal IMAGE LBN [PLACE]: puts the sum of a block's words before this place, or before its last word, there.
seal() {
    sum=$(dd if="$1" bs=512 skip="$2" count=1 2>/dev/null | od -An -v -t u1 |
        awk -v end="${3:-510}" '{ for (i = 1; i <= NF; i++) { if (at < end) sum += at % 2 ? 256 * $i : $i; at++ } } END { sum %= 65536; printf "\\%03o\\%03o", sum % 256, int(sum / 256) }')
    put "$1" "$2" "${3:-510}" "$sum"
}

# most_files IMAGE N: puts H.FMAX into the home block, and both its sums.
most_files() {
    put "$1" 1 6 "$(printf '\\%03o\\%03o' $(($2 % 256)) $(($2 / 256)))"
    seal "$1" 1 58
    seal "$1" 1
}

# header IMAGE NUMBER NAME NEXT MAP CHARACTERISTICS: puts the header of a file of [1,1] with sequence number 1 and version 1 at its place,
# with its name words and type word, the number and sequence number of its next header, its map from the sizes on, and its sum.
header() {
    put "$1" $(($2 + 2)) 0 "\\027\\056\\$(printf %03o "$2")\\000\\001\\000\\001\\001\\001\\001\\000\\340$6"
    put "$1" $(($2 + 2)) 46 "$3\\001"
    put "$1" $(($2 + 2)) 94 "$4$5"
    seal "$1" $(($2 + 2))
}

# make_volume IMAGE: the sample volume, 40 blocks with five reserved files, which f11 has inside. The blocks from 22 on are free and hold
# old bytes.
make_volume() {
    "$program" --out "$1" >/dev/null
}

# make_large IMAGE: the same with 512 blocks. The storage bitmap says of the new ones, too, that they are free.
make_large() {
    make_volume "$1"
    dd if=/dev/zero bs=512 count=472 2>/dev/null | tr '\000' Z >>"$1"
    put "$1" 20 5 "$(printf '%59s' '' | sed 's/ /\\377/g')"
}

# chain_headers FROM TO: the headers of A.TXT;1, file 6 of [1,1], with these numbers and sequence number 1, in the form of printf. They are
# segments 0 to 255 of a chain that 261 ends, and have no pointers and no room for any.
chain_headers() {
    awk -v from="$1" -v to="$2" 'BEGIN {
        for (n = from; n <= to; n++) {
            for (i = 0; i < 255; i++) w[i] = 0
            w[0] = 23 + 256 * 46; w[1] = n; w[2] = 1; w[3] = w[4] = 257; w[5] = 57344
            w[23] = 1600; w[26] = 32980; w[27] = 1
            w[46] = n - 6; w[49] = 769
            if (n < 261) { w[47] = n + 1; w[48] = 1 }
            sum = 0
            for (i = 0; i < 255; i++) sum += w[i]
            w[255] = sum % 65536
            for (i = 0; i < 256; i++) printf "\\%03o\\%03o", w[i] % 256, int(w[i] / 256)
        }
    }'
}

# long_chain IMAGE N: a volume of 700 blocks with H.FMAX N, of which those behind 511 are held. INDEXF.SYS has 276 headers, all numbers up to
# 276 are in use, and file 6 has a chain of 256 headers.
long_chain() {
    make_large "$1"
    dd if=/dev/zero bs=512 count=188 2>/dev/null >>"$1"
    most_files "$1" "$2"
    put "$1" 2 0 "$(printf '%34s' '' | sed 's/ /\\377/g')\\017"
    put "$1" 3 100 '\006'
    put "$1" 3 106 '\000\377\026\000\000\003\026\001'
    seal "$1" 3
    put "$1" 8 0 "$(chain_headers 6 16)"
    put "$1" 22 0 "$(chain_headers 17 261)"
    put "$1" 20 2 "$(printf '%33s' '' | sed 's/ /\\000/g')\\374"
}
