#!/bin/sh
# Makes the sample volume by f11fs alone, the same bytes each time: examples/make_sample.sh IMAGE
#
# An RX01 of 494 blocks with [1,2], a directory FORT with SRC in it, a text in two versions, a FORTRAN listing, an object module, a binary,
# a file that no directory names, and one that was deleted.
set -eu
top=$(cd "$(dirname "$0")/.." && pwd)
program=${F11FS:-$top/f11fs}
case $1 in /*) image=$1 ;; *) image=$PWD/$1 ;; esac
room=$(mktemp -d "${TMPDIR:-/tmp}/f11-sample.XXXXXX")
trap 'rm -rf "$room"' EXIT
cd "$room"

# Changes the volume on a day of November 1985: at DAY WORDS..
at() {
    day=$1
    shift
    "$program" --stamp "${day}NOV85093000" volume "$@"
}

# A record: its length, its bytes as printf writes them, and a zero where the length is odd. record LENGTH BYTES
record() {
    # shellcheck disable=SC2059 # the bytes are a format
    printf "\\$(printf %03o "$1")\\000$2"
    [ $(($1 % 2)) -eq 0 ] || printf '\0'
}

# A record of a line of text: line TEXT
line() {
    record ${#1} "$1"
}

at 18 init 494 --label SAMPLE --files 30
at 18 mkdir -q 1,2 FORT FORT/SRC
printf 'Volume SAMPLE\n\nA text in two versions, a listing, a module.\n' >notes.txt
at 19 put notes.txt 1,2/
printf 'FORT holds the program PRIMES.\n' >>notes.txt
at 22 put notes.txt 1,2/
cat >primes.ftn <<'FORTRAN'
      PROGRAM PRIMES
C     THE PRIMES BELOW 100
      DO 20 N = 2, 99
      DO 10 K = 2, N - 1
      IF (MOD(N, K) .EQ. 0) GOTO 20
10    CONTINUE
      TYPE 30, N
20    CONTINUE
30    FORMAT (1X, I5)
      END
FORTRAN
at 19 put primes.ftn FORT/SRC/
{
    line '1FORTRAN IV     PRIMES.FTN     20-NOV-85'
    line '0 0001        PROGRAM PRIMES'
    line '  0002        DO 20 N = 2, 99'
    line '0 NO ERRORS'
} >primes.lst
at 20 put -b --form variable,ftn,132 primes.lst FORT/
{
    record 14 '\1\0PRIMES\0\0\1\12\15\0'
    record 6 '\2\0\4\0\377\1'
    record 2 '\6\0'
} >primes.obj
at 20 put -b --form variable,none,128 primes.obj FORT/
awk 'BEGIN { for (i = 0; i < 1536; i++) printf "%c", i % 127 + 1 }' >primes.tsk
at 21 put -b primes.tsk FORT/
printf 'Nobody names me.\n' >lost.txt
at 21 put lost.txt 1,2/
"$program" volume rm --entry '1,2/LOST.TXT;1'
printf 'I was deleted.\n' >gone.txt
at 21 put gone.txt 1,2/
"$program" volume rm '1,2/GONE.TXT;1'
mv volume "$image"
