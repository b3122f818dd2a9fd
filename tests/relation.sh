#!/usr/bin/env bash
# The relation test in the archive's own code: once the family is chosen, by two conditional jumps, it has none, so that it branches on no
# node. What C calls, mogtriz_related, hands the three numbers to it after their range checks, and mogtriz_step calls it too. Needs
# `bash build.sh`.
set -euo pipefail
cd "$(dirname "$0")/.."
code=target/relation.code
objdump -dr --no-show-raw-insn -M intel target/staticlib/libmogtriz.a >"$code"

# code_of FUNCTION: its instructions, a line each
code_of() { awk -v head="<$1>:" 'index($0, head) { on = 1; next } /^$/ { on = 0 } on' "$code"; }
# count PATTERN: how many of the input's instructions have it
count() { grep -cE "^ +[0-9a-f]+:\s+$1" || true; }
# is WHAT FOUND WANTED
is() {
    if [ "$2" != "$3" ]; then
        echo "$1: $2, not $3"
        exit 1
    fi
}

conditional='j[^m]'
test=families::Code::related
is "conditional jumps in $test" "$(code_of $test | count "$conditional")" 2
# Both stand at its head, where only the family is compared, with 1 and 2: the first argument, whose register is rdi, or a copy of it in
# whatever register the compiler takes for that.
is "conditional jumps in its first six instructions" "$(code_of $test | head -n 6 | count "$conditional")" 2
is "comparisons of the family there" "$(code_of $test | head -n 6 | count 'cmp +(dil|e[abcd]x),0x[12]$')" 2
is "copies of the family there" "$(code_of $test | head -n 6 | count 'movzx +e[abcd]x,dil$')" 1
is "calls and indirect jumps in $test" "$(code_of $test | count '(call|jmp +[^0-9a-f])')" 0

# after mogtriz_related's last conditional jump comes the call, and then its end
code_of mogtriz_related | awk -v jump=":\tj[^m]" '$0 ~ jump { rest = ""; next } { rest = rest $0 "\n" } END { printf "%s", rest }' >"$code.end"
is "calls of $test after the range checks" "$(grep -c "$test" "$code.end")" 1
is "calls of $test by mogtriz_step" "$(code_of mogtriz_step | grep -c "R_X86_64_PLT32.*$test")" 1
echo "the relation test has no conditional jump after the choice of the family"
