#!/usr/bin/env bash
# Runs a program with each of its allocations refused in turn, until a run meets no refusal, and prints how often it ended how:
# the count, the status, and the first lines of its output and of its errors.
#
# usage: bench/refuse_memory.sh PROGRAM [WORD..]
#   bench/refuse_memory.sh crates/f11/out/f11 volume.dsk
#
# Needs a C compiler, and a program that takes its memory from the C library, as those that LLVM builds do.
set -eu
here=$(cd "$(dirname "${BASH_SOURCE[0]}")" && pwd)
folder=$(mktemp -d "${TMPDIR:-/tmp}/refuse.XXXXXX")
trap 'rm -rf "$folder"' EXIT
cc -shared -fPIC -O1 -o "$folder/refuse.so" "$here/refuse_memory.c" -ldl

for ((number = 1; ; number++)); do
    rm -f "$folder/refused"
    status=0
    { REFUSE=$number REFUSED=$folder/refused LD_PRELOAD=$folder/refuse.so "$@" >"$folder/out" 2>"$folder/err" || status=$?; } 2>/dev/null
    [ -e "$folder/refused" ] || break
    printf 'status %s | %s | %s\n' "$status" "$(head -n 1 "$folder/out" | cut -c 1-60)" "$(head -n 1 "$folder/err" | cut -c 1-60)"
done | sort | uniq -c
