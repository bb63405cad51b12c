#!/usr/bin/env bash
# Lets PDP-11 code read the home block of a new volume and sum it: the code reads LBN 1 of an RL02 by its controller, adds up the words before each of
# the two sums, and subtracts the sum; what stays is 0 where it is right.
#
# usage: bench/pdp11.sh     Needs simh (Debian's package, `pdp11`) and Python 3; F11FS names another program than ./f11fs. No part of the gate.
set -eu
here=$(cd "$(dirname "${BASH_SOURCE[0]}")" && pwd)
program=${F11FS:-$here/../f11fs}
folder=$(mktemp -d "${TMPDIR:-/tmp}/f11-pdp11.XXXXXX")
trap 'rm -rf "$folder"' EXIT
"$program" "$folder/rl02.dsk" init 20480 --label RSXDISK
cd "$folder"
python3 - >commands <<'END'
def code(words):
    """Reads two sectors of 256 bytes from sector 2 on to 2000, adds up so many words from there on, and takes the next one off."""
    read = [0o012737, 0o2000, 0o174402, 0o012737, 2, 0o174404, 0o012737, 0o177400, 0o174406, 0o012737, 0o14, 0o174400]
    wait = [0o105737, 0o174400, 0o100375]  # TSTB, BPL
    add = [0o012701, 0o2000, 0o012702, words, 0o005000, 0o062100, 0o077202, 0o161100, 0]  # ADD (R1)+,R0; SOB; SUB (R1),R0; HALT
    return read + wait + add


print("set rl enable", "set rl0 rl02", "attach -q rl0 rl02.dsk", sep="\n")
for words in (29, 255):
    for k, word in enumerate(code(words)):
        print(f"d {0o1000 + 2 * k:o} {word:o}")
    print("run 1000", f"echo of {words} words, less the sum that stands behind them:", "e r0", sep="\n")
print("quit")
END
pdp11 commands | tee out
[ "$(grep -c '^R0:.000000' out)" -eq 2 ]
