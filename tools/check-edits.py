#!/usr/bin/env python3
"""Shows which must-fail edits no longer apply to the files as they stand.

usage: python3 tools/check-edits.py [NAME..]      in the folder above crates/; NAME: these crates alone

An edit has lines 'file: PATH' of the crate and pairs of lines 'old: TEXT' and 'new: TEXT'. The pairs are applied in order, each to what
the earlier ones made, and each old TEXT must stand exactly once. Prints each edit that does not apply, and why; exits with 1 if there is any.
"""
import glob
import os
import sys


def faults(crate, text):
    path, old, pairs, texts, was, said = "", None, 0, {}, {}, []
    for line in text.split("\n"):
        if line.startswith("file: "):
            path = line[len("file: ") :].strip()
            if path in texts:
                continue
            if os.path.normpath(path) != path or not path.startswith(("src/", "specs/", "proofs/")):
                return [f"'file: {path}' is not below src/, specs/ or proofs/"]
            if not os.path.isfile(f"{crate}/{path}"):
                return [f"there is no file {path}"]
            with open(f"{crate}/{path}", encoding="utf-8") as it:
                texts[path] = was[path] = it.read()
        elif line.startswith("old: "):
            if old is not None:
                said.append(f"no 'new:' line after 'old: {old}'")
            old = line[len("old: ") :]
        elif line.startswith("new:"):
            new = line[len("new:") :].removeprefix(" ")
            if not path or not old:
                return said + [f"'new: {new}' stands before any 'file:' or 'old:' line"]
            found = texts[path].count(old)
            if found != 1:
                said.append(f"{path} has this {found} times, and not once: {old}")
            texts[path] = texts[path].replace(old, new)
            old, pairs = None, pairs + 1
        elif line.strip() and not line.startswith(("#", "--", "//")):
            said.append(f"a line that is not read: {line}")
    if old is not None:
        said.append(f"no 'new:' line after 'old: {old}'")
    if not pairs:
        said.append("it has no 'old:' and 'new:' pair")
    elif texts == was:
        said.append("it changes nothing")
    return said


def main(names):
    edits = sorted(glob.glob("crates/*/must-fail/*.edit"))
    if names:
        edits = [edit for edit in edits if edit.split("/")[1] in names]
    bad = 0
    for edit in edits:
        with open(edit, encoding="utf-8") as it:
            said = faults("/".join(edit.split("/")[:2]), it.read())
        bad += bool(said)
        for why in said:
            print(f"{edit}: {why}")
    print(f"{len(edits)} edits, {bad} of them do not apply")
    return 1 if bad else 0


if __name__ == "__main__":
    sys.exit(main(sys.argv[1:]))
