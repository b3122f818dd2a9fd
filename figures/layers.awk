# Writes the crates as a graph for dot: a box for each, with its words under "about" in docs/LAYERS.md, and a line to each that it uses.
# dot puts them in rows, every crate above all that it uses.
# Usage: awk -f figures/layers.awk docs/LAYERS.md crates.txt

# lengths in inches and sizes in points, as dot has them. Every box has the same size, so that no font moves one
BEGIN {
    LETTERS = 30    # the most letters of a line in a box
    print "digraph layers {"
    print "graph [bgcolor=white, nodesep=0.22, ranksep=0.5, labelloc=t, fontname=Helvetica, fontsize=10]"
    print "node [shape=box, style=\"rounded,filled\", color=gray20, fillcolor=aliceblue, fixedsize=true, width=2.08, height=0.8]"
    print "node [fontname=Helvetica, fontsize=9]"
    print "edge [color=gray25, arrowsize=0.6]"
    note = "Each crate uses only those below it. A line goes to what a crate uses, unless other lines already lead there."
    print "label=\"" note "\\n \""
}

# docs/LAYERS.md: a row of the table of crates is | crate | about | ..
FNR == NR {
    if (split($0, cell, / *\| */) > 3) about[cell[2]] = cell[3]
    next
}

/^#/ { next }

# crates.txt: a line is NAME: what it uses. A name that has no line before it is a library of the kit, which is not drawn
{
    name = $1
    sub(/:$/, "", name)
    if (!(name in about)) {
        print "docs/LAYERS.md has no row for " name >"/dev/stderr"
        failed = 1
        exit 1
    }
    drawn[name] = 1
    print name " [label=\"" name broken(about[name]) "\"]"
    for (i = 2; i <= NF; i++) if ($i in drawn) print name " -> " $i
}

END { if (!failed) print "}" }

# the words in lines that a box has room for, each line after a break
function broken(text,    count, word, i, room, lines) {
    gsub(/["\\]/, "\\\\&", text)
    count = split(text, word, " ")
    for (i = 1; i <= count; i++) {
        if (length(word[i]) < room) {
            lines = lines " " word[i]
            room -= 1 + length(word[i])
        } else {
            lines = lines "\\n" word[i]
            room = LETTERS - length(word[i])
        }
    }
    return lines
}
