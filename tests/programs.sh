#!/usr/bin/env bash
# The two programs on boxes, on other bytes, and where reading or writing fails: standard output compared byte for byte with what
# document 01 says, standard error with the README's two texts. tests/programs/cases says which files are which case.
# Usage: bash tests/programs.sh [FOLDER OF THE PROGRAMS]. `bash build.sh` makes them in target/bin.
set -euo pipefail
root=$(cd "$(dirname "$0")/.." && pwd)
programs=$(cd "${1:-$root/target/bin}" && pwd)
room=$(mktemp -d)
trap 'rm -rf "$room"' EXIT
cp "$root"/samples/*.box "$root"/tests/programs/* "$room"
cd "$room"
cases=0
differ=0

# same PROGRAM OUTPUT COMPLAINT NAME: what the program wrote and what it said on standard error are these files
same() {
    cases=$((cases + 1))
    if ! cmp wrote "$2" || ! cmp said "$3"; then
        echo "$1 differs: $4"
        differ=$((differ + 1))
    fi
}

# run PROGRAM: the program on the input of the call
run() { "$programs/$1" >wrote 2>said; }

# uneven: hands its input on in pieces of 1, 999 and 4,097 bytes, with pauses, and then of 977
uneven() {
    for size in 1 999 4097; do
        dd bs="$size" count=1 status=none
        sleep 0.02
    done
    dd bs=977 status=none
}

# ---- the cases of the file

# bytes BYTE COUNT: so many of one byte, given as tr takes it
bytes() { head -c "$2" /dev/zero | tr '\0' "$1"; }

(cat largest.box; bytes '\0' 1) >made-65536
(cat largest.box; bytes '\0' 2) >made-65537
bytes '\0' 65536 >made-zeros-65536
bytes '\0' 65537 >made-zeros-65537
bytes '\1' 200000 >made-ones-200000
(printf '\1\2\0\6\2\0\0\0\1\2'; bytes '\21' 1536; bytes '\42' 1536) >made-longest
(printf '\1\2\0\6\3\0\0\0\1\2\3'; bytes '\21' 1536; bytes '\42' 1536; bytes '\63' 1536) >made-longest-refilled
(printf '\1\2\1\6\2\0\0\0\1\2'; bytes '\21' 1537; bytes '\42' 1537) >made-above

# holds PROGRAM INPUT OUTPUT HOW NAME: a line of the file for one of the programs
holds() {
    run "$1" <"$2"
    same "$1" "$3" nothing "$5"
    if [ "$4" = piped ]; then
        uneven <"$2" | run "$1" || true
        same "$1" "$3" nothing "$5, piped"
    fi
}

while read -r input listing refilled how name; do
    holds lister "$input" "$listing" "$how" "$name"
    holds refiller "$input" "$refilled" "$how" "$name"
done < <(grep '^[^#]' cases)

# ---- what cannot be read: nothing on standard output. The pipe is one whose reads do not wait: the second read fails

mkfifo pipe
exec 3<>pipe
dd iflag=nonblock count=0 status=none <&3
for program in lister refiller; do
    run "$program" <.
    same "$program" nothing cannot-read "a directory"
    run "$program" <&-
    same "$program" nothing cannot-read "a closed input"
    head -c 10 simplex.box >&3
    run "$program" <&3
    same "$program" nothing cannot-read "a read that fails half way"
done

# ---- what cannot be written: a full disk, a closed output, and a file that may have no more than 1,024 bytes

: >wrote
for program in lister refiller; do
    "$programs/$program" <simplex.box >/dev/full 2>said
    same "$program" nothing cannot-write "a full disk"
    "$programs/$program" <simplex.box >&- 2>said
    same "$program" nothing cannot-write "a closed output"
done
head -c 1024 largest.box >cut-short
(trap '' XFSZ; ulimit -f 1; "$programs/refiller" <largest.box >wrote 2>said)
same refiller cut-short cannot-write "an output cut short"

echo "programs: $cases outputs, $differ differ"
[ "$differ" -eq 0 ]
