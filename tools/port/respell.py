#!/usr/bin/env python3
"""Spells this repository's own definitions, lemmas and fields as today's Rattle does: words in snake case, a dash between two names.

usage: python3 tools/port/respell.py [FOLDER]      after the kit's port.py, once, in the folder above crates/

names.tsv beside this file has a line for each name: as port.py leaves it, as it is spelled now, and whether it is a field of a record.
A field is turned behind a dot too; any other name behind a dot is part of a path or a name that Rattle makes, and stays.
In .rt files only ghost lines and clauses are turned, so that the code keeps its names.
"""
import glob
import os
import re
import sys

HERE = os.path.dirname(os.path.realpath(__file__))
WORD = r"[^\s(){}.;,@\"«»\[\]\\λ←]+"
BARE = re.compile(r"(?<![^\s(){};,@\"«»\[\]\\λ←])(" + WORD + ")")
BEHIND = re.compile(r"(?<=\.)(" + WORD + ")")
# a lemma whose name another lemma of the same file has now, by file
ALONE = {
    "crates/encoding/proofs/Linear.antt": {"xor_bytes": "xor_bytes_lem"},
    "crates/repair/proofs/RoundTripLaws.antt": {"names_in": "names_in_lem"},
}


def table():
    names, fields = {}, {}
    with open(os.path.join(HERE, "names.tsv"), encoding="utf-8") as lines:
        for line in lines:
            old, new, kind = line.rstrip("\n").split("\t")
            names[old] = new
            if kind == "field":
                fields[old] = new
    return names, fields


def turned(text, names, fields):
    text = BARE.sub(lambda m: names.get(m[1], m[1]), text)
    return BEHIND.sub(lambda m: fields.get(m[1], m[1]), text)


def in_comment(text, names):
    """A comment's words in prose stay; a name in it is known by its capital letters."""
    return re.sub(r"[a-z][A-Za-z0-9]*[A-Z][A-Za-z0-9]*", lambda m: names.get(m[0], m[0]), text)


def antt(text, names, fields, own):
    both = {**own, **names}
    out = []
    for line in text.split("\n"):
        at = 0 if line.lstrip().startswith("--") else line.find(" -- ")
        code, comment = (line, "") if at < 0 else (line[:at], line[at:])
        out.append(turned(code, both, fields) + in_comment(comment, names))
    return "\n".join(out)


def rattle(text, names, fields):
    out, ghost, deep = [], False, 0
    for line in text.split("\n"):
        if line.lstrip().startswith("//"):
            out.append(in_comment(line, names))
            continue
        if not ghost and re.match(r"\s*(ghost use|requires|ensures|ghost )\b", line):
            ghost, deep = True, 0
        if ghost:
            # a clause ends with its closing brace, a ghost line with its semicolon
            deep += line.count("{") - line.count("}")
            out.append(turned(line, names, fields))
            if deep <= 0 and ("}" in line or ";" in line):
                ghost = False
        else:
            out.append(line)
    return "\n".join(out)


def main(root):
    names, fields = table()
    for path in sorted(glob.glob(os.path.join(root, "crates/*/**/*"), recursive=True)):
        local = os.path.relpath(path, root)
        if "/out/" in local or not path.endswith((".antt", ".rt")):
            continue
        with open(path, encoding="utf-8") as f:
            text = f.read()
        new = antt(text, names, fields, ALONE.get(local, {})) if path.endswith(".antt") else rattle(text, names, fields)
        if new != text:
            with open(path, "w", encoding="utf-8") as f:
                f.write(new)


if __name__ == "__main__":
    main(sys.argv[1] if len(sys.argv) > 1 else ".")
