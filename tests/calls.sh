#!/usr/bin/env bash
# The library and its header from C and from C++: what the library exports is what the header declares and tests/calls.c calls, and it
# needs nothing from outside but what README says; what the header adds is called too, and right; each call takes empty buffers, warns
# where its answer is ignored, and needs no more stack than is said. Needs `bash build.sh`.
set -euo pipefail
cd "$(dirname "$0")/.."
archive=target/staticlib/libmogtriz.a
out=target/calls
strict=(-Wall -Wextra -Wconversion -pedantic -Werror -Iinclude)
sanitizers=(-g -fsanitize=address,undefined -fno-sanitize-recover=all)
mkdir -p "$out"
# programs here end by abort, as they should, and leave no memory image behind
ulimit -c 0

# names: the functions of Mogtriz that the input names, once each
names() { grep -oE '\bmogtriz_[a-z_]+' | sort -u; }

# ---- what the library exports, and what the header declares (C) and defines (F), as gcc lists it

gcc -std=c99 "${strict[@]}" -fsyntax-only -aux-info "$out/listed" -x c include/mogtriz.h
listed() { grep "include/mogtriz.h:[0-9]*:N$1 " "$out/listed"; }
functions() { grep -oE '\bmogtriz_[a-z_]+ \(' | names; }

nm -g --defined-only "$archive" | names >"$out/exported"
listed C | functions | diff "$out/exported" -
listed F | functions >"$out/inline"
# of the C library it needs memcpy and memset alone
nm --undefined-only "$archive" | awk '$1 == "U" { print $2 }' | sort -u | diff <(printf '%s\n' memcpy memset) -
# each call with a buffer has its own in the header
listed C | grep 'uint8_t \*' | functions >"$out/with_buffers"
sed 's/mogtriz_/&inline_/' "$out/with_buffers" | diff - <(comm -12 "$out/inline" <(sed 's/mogtriz_/&inline_/' "$out/exported"))
# each call with a buffer or a session has a refusal in its answer
listed C | grep -E 'uint8_t \*|\(mogtriz_session' | functions >"$out/with_refusals"

# ---- each of them called, in every language

# compiled NAME COMPILER..: tests/NAME.c, linked and run
compiled() {
    "${@:2}" "${strict[@]}" -c "tests/$1.c" -o "$out/$1.o"
    "${@:2}" "$out/$1.o" "$archive" -o "$out/$1"
    "$out/$1" >"$out/$1.said"
}

# calls LANGUAGE COMPILER..
calls() {
    compiled calls "${@:2}"
    nm --undefined-only "$out/calls.o" | names | diff "$out/exported" -
    compiled header "${@:2}"
    test "$(wc -l <"$out/header.said")" = 3
    while read -r sentence; do
        if ! grep -qF -- "$sentence" include/mogtriz.h; then
            echo "not in the header: $sentence"
            exit 1
        fi
    done <"$out/header.said"
    # a function's name stands before a bracket or, in C, a quotation mark
    LC_ALL=C "${@:2}" -Iinclude -c tests/ignored.c -o "$out/ignored.o" 2>&1 | grep 'ignoring return value' |
        grep -oE "mogtriz_[a-z_]+['(]" | sed 's/inline_//' | names | diff "$out/with_refusals" -
    echo "$1: $(wc -l <"$out/exported") functions called"
}

# g++ takes a file for C++ whatever it is called
calls C++11 g++ -std=c++11
calls C++17 g++ -std=c++17
calls C99 gcc -std=c99

# ---- buffers: empty, null, and in one another

# ends FAULT PROGRAM WORDS: the program ends at this fault, with these words
ends() {
    # the outer brackets take in the shell's own line on a program that was aborted
    if { "$2" "$1" >"$out/said" 2>&1; } 2>/dev/null || ! grep -q "$3" "$out/said"; then
        echo "$2 does not end at fault $1 with: $3"
        cat "$out/said"
        exit 1
    fi
}

# buffers LANGUAGE COMPILER..: without the header's assertions, null that reaches the library is noticed for each pointer, so that
# none does where the length is 0; with them every fault is
buffers() {
    "${@:2}" "${strict[@]}" "${sanitizers[@]}" tests/buffers.c "$archive" -o "$out/buffers"
    "${@:2}" "${strict[@]}" "${sanitizers[@]}" -DMOGTRIZ_CHECK_BUFFERS tests/buffers.c "$archive" -o "$out/buffers_checked"
    "$out/buffers" >"$out/buffers.said"
    "$out/buffers_checked" >"$out/buffers.said"
    read -r nulls faults <"$out/buffers.said"
    for fault in $(seq "$nulls"); do ends "$fault" "$out/buffers" 'null pointer passed as argument'; done
    for fault in $(seq "$faults"); do ends "$fault" "$out/buffers_checked" 'Assertion'; done
    echo "$1: empty buffers taken, $faults faults noticed"
}

buffers C++17 g++ -std=c++17
buffers C99 gcc -std=c99

gcc -c "${strict[@]}" -std=c99 -DMOGTRIZ_CHECK_BUFFERS tests/buffers.c -o "$out/buffers.o"
nm --defined-only "$out/calls.o" "$out/header.o" "$out/buffers.o" | grep ' t ' | names | diff "$out/inline" -
echo "header: $(wc -l <"$out/inline") functions called"

# ---- the stack, by programs with and without optimisation

for level in -O0 -O2; do
    gcc -std=c99 "$level" "${strict[@]}" tests/stack.c "$archive" -Wl,-z,now -o "$out/stack"
    "$out/stack" >"$out/stack$level.said"
done
read -r call most < <(sort -k 2nr "$out"/stack-O?.said)
echo "stack: $most bytes at most, touched by $call"
