#!/usr/bin/env bash
# What the docs name is there. In backticks: a path exists, also relative to a crate of its line; `crate::name` and `Session::name`
# are declared in Rattle, and `mogtriz_name` in the header; any other word is one of the code, its comments left out. A name before
# "(crate, Module)", or in the bracket itself, stands in that module of specs/. A must-fail edit, crate/edit, exists. Links of README.md
# and docs/ lead to a file, and to a heading of it. Each file of specs/ is either definitions or claims in the table of docs/LAYERS.md;
# their lines are counted.
# Usage: bash tests/docs.sh
set -euo pipefail
cd "$(dirname "$0")/.."
export LC_ALL=C
pages=(docs/PROMISES.md docs/READING.md docs/LAYERS.md docs/DECISIONS.md docs/FORMAT.md)
looked=0
missing=0

# words in backticks that are no names of this repository, each for the reason beside it
declare -A known=(
    [must-fail]="a command of the kit"
    [memset]="a function of the C library, which the compiler puts in"
    [memmove]="a function of the C library, which the library does without"
    [condition]="stands for any condition of a check"
)

# lacks PLACE WHAT: counts and prints what is missing
lacks() {
    missing=$((missing + 1))
    echo "$1: $2"
}

# ---- what there is

declare -A is_crate is_word is_in_header is_declared
while IFS=: read -r crate _; do is_crate[${crate%% *}]=1; done < <(grep -v '^#' crates.txt)

# the names in some text
names() { grep -oE "[A-Za-z0-9_][A-Za-z0-9_'-]*" | sort -u; }

header() { sed '/^ *\/\?\*/d' include/mogtriz.h; }

# the code without its comments, and the names of the crates. This script is left out: a word of the list above would do for itself
words() {
    find crates -name '*.antt' -exec sed 's/--.*//' {} +
    find crates rust compare bench fuzz figures -name target -prune -o \( -name '*.rt' -o -name '*.rs' \) -exec sed 's|//.*||' {} +
    header
    sed '/^ *#/d' .ci/run tests/programs.sh bench/run fuzz/run figures/draw
    cut -d: -f1 crates.txt
}
while read -r name; do is_word[$name]=1; done < <(words | names)
while read -r name; do is_in_header[$name]=1; done < <(header | names)

# crate::name for a lib.rt or main.rt, module::name and crate::module::name for any other, Type::name for what an impl has
declarations() {
    awk '
        FNR == 1 { split(FILENAME, part, "/"); crate = part[2]; module = part[4]; sub(/\.rt$/, "", module); owner = "" }
        /^impl / { owner = $2 }
        /^}/ { owner = "" }
        /^ *(pub )?(fn|struct|enum|const) / {
            name = $0
            sub(/^ *(pub )?(fn|struct|enum|const) /, "", name)
            sub(/[^A-Za-z0-9_].*/, "", name)
            if (owner != "") print owner "::" name
            else if (module == "lib" || module == "main") print crate "::" name
            else { print module "::" name; print crate "::" module "::" name }
        }' crates/*/src/*.rt
}
while read -r name; do is_declared[$name]=1; done < <(declarations)

# ---- what the docs name: a line for each, PLACE, KIND, NAME, and what it is held against

# word: a span in backticks, with its whole line. defined: a name, with the crates and modules in the brackets after it.
# edit: a must-fail edit outside backticks, where a bare name is one of the crate named before it. odd: a backtick with no partner
named() {
    awk -v crates="${!is_crate[*]}" '
        BEGIN { count = split(crates, list, " "); for (i = 1; i <= count; i++) crate[list[i]] = 1 }
        function say(kind, name, against) { print FILENAME ":" FNR "\t" kind "\t" name "\t" against }
        /^```/ { fenced = !fenced; next }
        fenced { next }
        {
            count = split($0, span, "`")
            if (count > 0 && count % 2 == 0) say("odd", "a backtick with no partner", "-")
            run = 0
            plain = ""
            for (i = 1; i <= count; i++) {
                if (i % 2 == 1) { plain = plain " " span[i]; continue }
                say("word", span[i], $0)
                if (span[i - 1] != ", ") run = 0
                names[++run] = span[i]
                where = span[i + 1]
                if (where ~ /^( \(|, )[a-z_]+(, [A-Z][A-Za-z]*)?(; [a-z_]+, [A-Z][A-Za-z]*)*\)/) {
                    sub(/^( \(|, )/, "", where)
                    sub(/\).*/, "", where)
                    first = where
                    sub(/[,;].*/, "", first)
                    if (first in crate) for (j = 1; j <= run; j++) say("defined", names[j], where)
                }
            }
            owner = ""
            parts = split(plain, part, /[ ,;()|]+/)
            for (i = 1; i <= parts; i++) {
                if (part[i] ~ /^[a-z_]+\/[a-z0-9_]+$/) {
                    owner = part[i]
                    sub(/\/.*/, "", owner)
                    if (owner in crate) say("edit", part[i], "-")
                    else owner = ""
                } else if (owner != "" && part[i] ~ /^[a-z0-9]+_[a-z0-9_]+$/) say("edit", owner "/" part[i], "-")
            }
        }' "${pages[@]}"
}

# ---- is it there?

# path NAME LINE: a file or folder, or some that a pattern fits; `folder` is that of the path before it on the line
path() {
    local tried crate row
    for tried in "$1" "crates/$1" "crates/${1%%/*}/must-fail/${1#*/}.edit"; do
        if compgen -G "$tried" >/dev/null; then
            folder=${tried%/*}
            return 0
        fi
    done
    case $1 in
        specs/ | src/ | proofs/ | must-fail/) return 0 ;;
        */*) ;;
        *) if [ -n "$folder" ] && compgen -G "$folder/$1" >/dev/null; then return 0; fi ;;
    esac
    # the crate that a row of a table begins with, or any that the line names
    row=${2#| }
    row=${row%% |*}
    if [ -n "${is_crate[$row]:-}" ]; then compgen -G "crates/$row/$1" >/dev/null && return 0 || return 1; fi
    for crate in ${2//[^a-z_]/ }; do
        if [ -n "${is_crate[$crate]:-}" ]; then
            for tried in "crates/$crate/$1" "crates/$crate/proofs/$1"; do
                if compgen -G "$tried" >/dev/null; then return 0; fi
            done
        fi
    done
    return 1
}

# part NAME LINE: one word of a span
part() {
    local name
    case $1 in
        */* | *.antt | *.rt | *.rs | *.h | *.sh | *.md | *.txt) path "$1" "$2"; return ;;
        *::*) [ -n "${is_declared[$1]:-}" ]; return ;;
        mogtriz_*) [ -n "${is_in_header[$1]:-}" ]; return ;;
    esac
    # letters that stand for something, numbers and bytes are no names
    for name in ${1//[^A-Za-z0-9_\'-]/ }; do
        if [[ $name =~ ^([a-zA-Z]|[0-9]+|[_-]+)$ ]]; then continue; fi
        if [ -z "${is_word[$name]:-}" ] && [ -z "${known[$name]:-}" ]; then return 1; fi
    done
}

# defined NAME WHERE: the name stands in one of these modules, "crate, Module; crate, Module" or "crate"
defined() {
    local where crate module
    while IFS= read -r where; do
        crate=${where%%,*}
        module='*'
        if [ "$crate" != "$where" ]; then module=${where#*, }; fi
        if grep -qE "(^|[^A-Za-z0-9_'-])$1($|[^A-Za-z0-9_'-])" < <(sed 's/--.*//' crates/"$crate"/specs/$module.antt); then return 0; fi
    done <<<"${2//; /$'\n'}"
    return 1
}

last=
folder=
while IFS=$'\t' read -r place kind name against; do
    looked=$((looked + 1))
    if [ "$place" != "$last" ]; then folder=; last=$place; fi
    case $kind in
        odd) lacks "$place" "$name" ;;
        defined) defined "$name" "$against" || lacks "$place" "\`$name\` is not in ($against)" ;;
        edit) [ -e "crates/${name%%/*}/must-fail/${name#*/}.edit" ] || lacks "$place" "no must-fail edit $name" ;;
        word)
            set -f
            for piece in $name; do
                part "$piece" "$against" || lacks "$place" "\`$name\` is not there"
            done
            set +f
            ;;
    esac
done < <(named)

# ---- links

# headings PAGE: each as a link writes it
headings() { grep '^#' "$1" | sed 's/^#* //' | tr 'A-Z ' 'a-z-' | tr -cd 'a-z0-9_\n-'; }

while IFS=: read -r page line link; do
    looked=$((looked + 1))
    target=${link%%#*}
    file=$page
    if [ -n "$target" ]; then file=$(dirname "$page")/$target; fi
    if [ ! -e "$file" ]; then
        lacks "$page:$line" "no file $link"
    elif [ "$target" != "$link" ] && ! grep -qxF -- "${link#*#}" < <(headings "$file"); then
        lacks "$page:$line" "no heading $link"
    fi
done < <(grep -noE '\]\([^)]*\)' README.md docs/*.md | sed 's/\](//; s/)$//' | grep -vE ':[0-9]+:[a-z]+://')

# ---- what has to be believed

# column N: the files of specs/ that the table of docs/LAYERS.md has in its Nth column
column() {
    awk -F'|' -v n="$(($1 + 1))" '
        /^\| [a-z_]+ \|/ {
            crate = $2
            gsub(/ /, "", crate)
            for (text = $n; match(text, /`specs\/[A-Za-z]+\.antt`/); text = substr(text, RSTART + RLENGTH))
                print "crates/" crate "/" substr(text, RSTART + 1, RLENGTH - 2)
        }' docs/LAYERS.md
}
mapfile -t believed < <(column 4)
mapfile -t claims < <(column 5)
mapfile -t inner < <(compgen -G 'crates/*/specs/Inner.antt')

# every file of specs/ is in one of the two columns, or serves inner functions
for file in crates/*/specs/*.antt; do
    case $file in */Lib.antt | */Inner.antt) continue ;; esac
    looked=$((looked + 1))
    listed=$(printf '%s\n' "${believed[@]}" "${claims[@]}" | grep -cxF "$file" || true)
    if [ "$listed" -ne 1 ]; then lacks docs/LAYERS.md "$file is in $listed columns"; fi
done

# lines FILE..: without imports, comments and blank lines
lines() { cat "$@" | grep -cvE '^ *(--|use |module |infix |$)'; }

echo "specs: $(lines "${believed[@]}") lines to believe, $(lines "${claims[@]}") of claims, $(lines "${inner[@]}") for inner functions"
echo "docs: $looked names and links, $missing missing"
[ "$missing" -eq 0 ]
