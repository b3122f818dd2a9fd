#!/usr/bin/env python3
"""Turns a crate's Proof.antt files into Invariants.antt and a store of answers, from which Answers.antt takes what the check does not find itself.

usage: python3 tools/port/answers.py NAMES CRATE           writes Invariants.antt, moves Proof.antt away and keeps the answers in STORE
       python3 tools/port/answers.py --take SAID CRATE     adds to Answers.antt the kept answers of the goals that a check's output SAID leaves open

NAMES is the names.json of 'rt check --generated DIR --old-names' in the crate's folder. STORE is CRATE/out/port.
"""
import glob
import json
import os
import re
import sys

WORD = r"[^\s(){}.;,@\"«»\[\]\\λ←]+"
HEAD = re.compile(r"^((?:abbrev |unfoldable |pub )*)(" + WORD + r")\s*:\s(.*)$")


def plain(name):
    return re.sub("[-_]", "", name)


def source_words(crate):
    words = set()
    for path in glob.glob(os.path.join(os.path.dirname(crate.rstrip("/")) or ".", "*/src/*.rt")):
        with open(path, encoding="utf-8") as f:
            words |= set(re.findall(r"[A-Za-z][A-Za-z0-9_]*_[A-Za-z0-9_]*", f.read()))
    return {plain(w): w for w in words}


CLAUSE = re.compile(r"^\s*(requires|ensures)\s+(?:([A-Za-z_][A-Za-z0-9_]*)\s+)?\{")


def clauses(root):
    """For each function of the repository, by its path: the names of its requires and of its ensures."""
    found = {}
    for path in sorted(glob.glob(os.path.join(root, "crates/*/src/*.rt"))):
        crate = path.split(os.sep)[-3]
        module = os.path.basename(path)[:-3]
        at = crate if module in ("lib", "main") else crate + "::" + module
        owner, now, inside, head = "", None, False, ""
        with open(path, encoding="utf-8") as f:
            for line in f:
                m = re.match(r"^impl (\w+)", line)
                if m:
                    owner = m[1]
                elif line.startswith("}"):
                    owner = ""
                m = re.match(r'^\s*(?:pub )?(?:extern "C" )?fn (\w+)', line)
                if m:
                    # a method is named by its type's module, which is the root here
                    now = (crate + "::" + owner if owner else at) + "::" + m[1]
                    found[now] = {"requires": [], "ensures": [], "params": [], "was": {"requires": 0, "ensures": 0}}
                    head, more = line[m.end():], True
                    inside = True
                elif now and inside:
                    head += line
                if now and inside and (")" in head):
                    inside = False
                    found[now]["lent"] = re.findall(r"(?:^|[(,])\s*(\w+)\s*:\s*&(?:'\w+ )?mut\b", head.split("->")[0])
                    found[now]["params"] = re.findall(r"(?:^|[(,])\s*(?:mut )?(self|\w+)(?=\s*[:,)])", head.split("->")[0])
                m = CLAUSE.match(line)
                if m and now:
                    found[now][m[1]].append(m[2])
    return found


def were(root, found):
    """How many clauses each function had before the port: read from the commit WAS."""
    import subprocess

    for path in sorted(glob.glob(os.path.join(root, "crates/*/src/*.rt"))):
        local = os.path.relpath(path, root)
        old = subprocess.run(["git", "-C", root, "show", f"{WAS}:{local}"], capture_output=True, text=True).stdout
        crate, module = local.split("/")[1], os.path.basename(path)[:-3]
        at = crate if module in ("lib", "main") else crate + "::" + module
        owner, now = "", None
        for line in old.split("\n"):
            m = re.match(r"^impl (\w+)", line)
            if m:
                owner = m[1]
            elif line.startswith("}"):
                owner = ""
            m = re.match(r'^\s*(?:pub )?(?:extern "C" )?fn (\w+)', line)
            if m:
                now = (crate + "::" + owner if owner else at) + "::" + m[1]
            m = re.match(r"^\s*(requires|ensures)\b", line)
            if m and now in found:
                found[now]["was"][m[1]] += 1
    return found


WAS = "01a146b3284ea4237870f5b13e623ec4ce801439"


def nested(text, n):
    """The parts of a tuple for n clauses: pairs in pairs, or all in one."""
    flat = parts_of(text)
    if flat and len(flat) == n:
        return flat
    parts, now = [], text
    for _ in range(n - 1):
        two = parts_of(now)
        if not two or len(two) != 2:
            return None
        parts.append(two[0])
        now = two[1]
    return parts + [now]


def parts_of(text):
    """The parts of a tuple in brackets, or none where the text is no tuple."""
    text = text.strip()
    if not (text.startswith("(") and text.endswith(")")):
        return None
    deep, parts, now = 0, [], ""
    for k, ch in enumerate(text[1:-1]):
        if ch in "([{":
            deep += 1
        if ch in ")]}":
            deep -= 1
            if deep < 0:
                return None
        if ch == "," and deep == 0:
            parts.append(now)
            now = ""
        else:
            now += ch
    if now.strip():
        parts.append(now)
    return [" ".join(p.split()) if "\n" not in p.strip() else p.strip() for p in parts] if len(parts) > 1 else None


def named_record(body, names):
    """A body that ends in a tuple of one part for each clause: a record of them by name."""
    if len(names) < 2:
        return body
    text = body.rstrip()
    if not text.endswith(")"):
        return body
    deep, k = 0, len(text)
    while k > 0:
        k -= 1
        deep += (text[k] == ")") - (text[k] == "(")
        if deep == 0:
            break
    parts = nested(text[k:], len(names))
    before = text[:k].rstrip()
    # what the tuple stands behind: nothing, or equations by which the goal is rewritten
    cuts = [0] + [m.end() for m in re.finditer(r"\bin\b", before)]
    last = before[cuts[-1]:].strip()
    if not parts or (last and not re.match(r"(rw|simp) ", last)):
        return body
    new = "record { " + "; ".join(f"{n} = {p}" for n, p in zip(names, parts)) + " }"
    return text[:k] + (f"({new})" if last else new)


def nearer(text, var):
    """A name that a λ binds and that hides a place gets a prime."""
    token = re.compile(r"(?<![^\s(){};,\[\]λ])" + re.escape(var) + r"(?![\w'-])")
    at = 0
    while True:
        m = re.compile(r"\(λ [^.]*?(?<![^\s(λ])" + re.escape(var) + r"(?=[\s.:])").search(text, at)
        if not m:
            return text
        deep, k = 0, m.start()
        while k < len(text):
            deep += (text[k] == "(") - (text[k] == ")")
            k += 1
            if deep == 0:
                break
        inner = token.sub(var + "'", text[m.start():k])
        text = text[:m.start()] + inner + text[k:]
        at = m.start() + len(inner)


def blocks(text):
    """The head (comments and use lines) and the declarations, each with the comments above it."""
    lines = text.split("\n")
    i, head = 0, []
    while i < len(lines) and (not lines[i].strip() or lines[i].startswith(("use ", "--"))):
        head.append(lines[i])
        i += 1
    # comments just above the first declaration belong to it, but for the file's own first lines
    tail = []
    while head and head[-1].startswith("--") and any(l.startswith("use ") for l in head):
        tail.insert(0, head.pop())
    found, now = [], list(tail)
    for line in lines[i:]:
        fresh = bool(line) and not line[0].isspace() and not line.startswith("--")
        if fresh:
            m = re.match(r"^((?:abbrev |unfoldable |pub |axiom )*)(" + WORD + ")", line)
            name = m[2] if m else ""
            starts = HEAD.match(line) or line.startswith(("record ", "data ", "pub record ", "pub data ", "module ", "ruleset ")) or (HEAD.match(line + " ") and line.rstrip().endswith(":"))
            if starts:
                body = [l for l in now]
                # comments and blank lines at the end of the former block go to this one
                carry = []
                while body and (not body[-1].strip() or body[-1].startswith("--")):
                    carry.insert(0, body.pop())
                if body:
                    found.append(body)
                now = [l for l in carry if l.strip()]
        now.append(line)
    if any(l.strip() for l in now):
        found.append(now)
    return head, found


class Function:
    def __init__(self, of, words, own, all_clauses):
        self.own = own
        self.callees, self.called_at = {}, {}
        ask = {new: at[0] for (old, new), at in zip(of["needs"], of["asked_at"])}
        for (place, parent, _, callee, _) in of["places"]:
            for goal, at in ask.items():
                if callee in all_clauses and parent == at and "-requires" in goal and goal.split("-")[0] == callee.split("::")[-1]:
                    self.called_at[goal] = all_clauses[callee]
        for (place, _, (old, new), callee, _) in of["places"]:
            if callee and callee in all_clauses:
                self.callees[new] = all_clauses[callee]
        self.needs = of["needs"]
        self.goals = {plain(n): new for old, new in of["needs"] for n in (new, old)}
        self.by_old = {plain(old): new for old, new in of["needs"]}
        self.loops = {}
        for k, ((old, new), of_vars) in enumerate(of["loops"]):
            self.loops[plain(old)] = self.loops[plain(new)] = (new, of_vars, of["changed"][k])
        self.places, self.steps = {}, {}
        for (place, _, (old, new), _, _), name in zip(of["places"], of["places_by_name"]):
            self.places[plain(place)] = name
            self.places.setdefault(plain(name), name)
            if old:
                self.steps[plain(old)] = new
                self.steps.setdefault(plain(new), new)
        old_new = {place: name for (place, _, _, _, _), name in zip(of["places"], of["places_by_name"])}
        self.info = {name: (old_new.get(parent), bool(typed)) for (place, parent, _, _, _), name, typed in zip(of["places"], of["places_by_name"], of["typed"])}
        self.asked = {new: at[1] for (old, new), at in zip(of["needs"], of["asked_at"])}
        self.results = {}
        # the equation of a match's arm, once a step of its own
        self.arms = {}
        for arm in of["arms"]:
            if arm and len(arm[2]) > 1:
                for field, step, path in arm[2][1:]:
                    self.arms[plain(step)] = (arm[0], field, path)
        for (place, _, (old, new), _, _) in of["places"]:
            if plain(old) in self.arms:
                self.arms[plain(new)] = self.arms[plain(old)]
        self.words = words
        self.cited = set()
        self.projections = set()
        self.takes = {}

    def chain(self, place, to):
        """A place further out, from c of `place`; found by its type where its record cannot be named."""
        steps, now = 0, place
        while now and now != to:
            now, steps = self.info[now][0] if now in self.info else None, steps + 1
        if now != to or self.info[to][1]:
            return "(search)"
        return "c" + ".before" * (steps + (1 if self.info[place][1] and steps else 0))

    def tied(self, name):
        for head in ("invariant-", "decreases-"):
            if name.startswith(head):
                got = self.loops.get(plain(name[len(head):]))
                return head + got[0] if got else name
        return self.places.get(plain(name), name)

    def path(self, segs):
        """The fields behind a place."""
        while segs and segs[0] == "before":
            segs = segs[1:]
        if not segs:
            return segs
        first, rest = segs[0], segs[1:]
        if plain(first) in self.arms:
            arm, field, path = self.arms[plain(first)]
            if [s for s in rest[: len(path)]] == path:
                return [arm, field] + rest[len(path):]
            return [first] + rest
        if first == "pre":
            first = "requires"
        new = self.steps.get(plain(first), self.words.get(plain(first), first) if "-" in first else first)
        if new.startswith("if-") and rest and rest[0] in ("taken", "left"):
            rest = [{"taken": "true", "left": "false"}[rest[0]]] + rest[1:]
        rest = ["invariant" if s == "inv" else s for s in self.by_clause(new, rest)]
        return [new] + [self.words.get(plain(s), s) if "-" in s and plain(s) in self.words else s for s in rest]

    def clause(self, of, kind, path):
        """Clauses were nested pairs, unless one clause has been split."""
        names, was = of[kind], of["was"][kind]
        if len(names) < 2:
            return path
        if was == len(names) or was == 0:
            k, at = 0, list(path)
            while k < len(names) - 1 and at and at[0] in ("0", "1"):
                if at.pop(0) == "0":
                    return [names[k]] + at
                k += 1
                if k == len(names) - 1:
                    return [names[k]] + at
            return path
        if was == 1 and path and path[0].isdigit() and int(path[0]) < len(names):
            return [names[int(path[0])]] + path[1:]
        print(f"  {was} clauses were {kind}, now {' '.join(names)}: {'.'.join(path)}")
        return path

    def by_clause(self, first, rest):
        if first == "requires" and rest and rest[0].isdigit():
            return self.clause(self.own, "requires", rest)
        if first in self.callees and len(rest) > 1 and rest[0] in ("kept", "last") and rest[1].isdigit():
            k, at, lent = 0, rest[1:], self.callees[first].get("lent", [])
            while at and at[0] == "1":
                k, at = k + 1, at[1:]
            if at and at[0] == "0":
                at = at[1:]
            if k < len(lent):
                return ["auto" if rest[0] == "kept" else "new", lent[k]] + at
        if first in self.callees and len(rest) > 1 and rest[0] == "ensures" and rest[1].isdigit():
            return ["ensures"] + self.clause(self.callees[first], "ensures", rest[1:])
        return rest

    def by_clause_old(self, first, rest):
        if first == "requires" and rest and rest[0].isdigit() and len(self.own["requires"]) > 1 and int(rest[0]) < len(self.own["requires"]):
            return [self.own["requires"][int(rest[0])]] + rest[1:]
        if first in self.callees and len(rest) > 1 and rest[0] in ("kept", "last") and rest[1].isdigit():
            k, at, lent = 0, rest[1:], self.callees[first].get("lent", [])
            while at and at[0] == "1":
                k, at = k + 1, at[1:]
            if at and at[0] == "0":
                at = at[1:]
            if k < len(lent):
                return ["auto" if rest[0] == "kept" else "new", lent[k]] + at
        if first in self.callees and len(rest) > 1 and rest[0] == "ensures" and rest[1].isdigit():
            names = self.callees[first]["ensures"]
            if len(names) > 1 and int(rest[1]) < len(names):
                return ["ensures", names[int(rest[1])]] + rest[2:]
        return rest

    def term(self, text, answer, goal=None):
        """A declaration or a body with the places' fields named as today."""
        # a helper's place is called c
        m = re.search(r"^(?:--[^\n]*\n)*(?:abbrev )?" + WORD + r" : \((" + WORD + r") : tie\.", text)
        if m and m[1] != "c" and not re.search(r"(?<![^\s(){};,\[\]λ])c(?=[\s).])", text):
            text = re.sub(r"(?<![^\s(){};,\[\]λ])" + re.escape(m[1]) + r"(?=[\s).};,]|$)", "c", text)
        # a place that is found by its type: its fields are those of c
        while True:
            m = re.search(r"\n?[ \t]*(?:(?<=[\s(])|^)let (" + WORD + r") : tie\.([^\s)]+)(?: [^\s()=]+)* = search in", text)
            if not m:
                break
            place = self.tied(m[2])
            rest = nearer(text[m.end():], m[1])
            rest = re.sub(r"(?<![^\s(){};,\[\]])" + re.escape(m[1]) + r"(?=\.)", "c", rest)
            rest = re.sub(r"(?<![^\s(){};,\[\]λ])" + re.escape(m[1]) + r"(?=[\s)};,]|$)", "\x01" + place + "\x02", rest)
            text = text[:m.start()] + rest
        # a name for a place further out
        while True:
            m = re.search(r"let (" + WORD + r") = c(?:\.before)* in ?", text)
            if not m:
                break
            rest = nearer(text[m.end():], m[1])
            rest = re.sub(r"(?<![^\s(){};,\[\]])" + re.escape(m[1]) + r"(?=\.)", "c", rest)
            rest = re.sub(r"(?<![^\s(){};,\[\]λ])" + re.escape(m[1]) + r"(?=[\s)};,]|$)", "\x01Start\x02", rest)
            text = text[:m.start()] + rest
        # the place of c
        m = re.search(r"\(c : tie\.([^\s)]+)|^(?:--[^\n]*\n)*(?:abbrev )?" + WORD + r" : tie\.([^\s)]+)", text)
        at = self.asked.get(goal) if goal else (self.tied(m[1] or m[2]) if m else None)
        if at in self.info:
            # a place that a helper gives
            inner = r"(?:c(?:\.before)*|\x01[^\x02]*\x02)"
            for _ in range(4):
                for h, (_, to) in self.results.items():
                    to = self.tied(to)
                    text = re.sub(r"\(" + re.escape(h) + r" (?:" + inner + r"|\(search\))\)(?=\.)", "c", text)
                    text = re.sub(r"\(" + re.escape(h) + r" (?:" + inner + r"|\(search\))\)|(?<![^\s(])" + re.escape(h) + r" (?:c(?:\.before)*(?=[\s)]|$)|\x01[^\x02]*\x02|\(search\))", lambda m: "\x01" + to + "\x02", text)
                    # a name for it
                    for n in re.finditer(r"let (" + WORD + r") = \x01" + re.escape(to) + r"\x02 in", text):
                        text = nearer(text.replace(n[0], "", 1), n[1])
                        text = re.sub(r"(?<![^\s(){};,\[\]])" + re.escape(n[1]) + r"(?=\.)", "c", text)
                        text = re.sub(r"(?<![^\s(){};,\[\]])" + re.escape(n[1]) + r"(?=[\s)};,]|$)", "\x01" + to + "\x02", text)
                text = re.sub(r"\(\x01([^\x02]*)\x02\)(?=\.)|\x01([^\x02]*)\x02(?:\.before)*(?=\.[^b])", "c", text)
            text = re.sub(r"\x01([^\x02]*)\x02", lambda m: ("c" if m[1] == at else f"(goal.at.{goal} c).{m[1]}" if goal else self.chain(at, m[1])), text)
            for n in re.findall(r"goal\.at\." + WORD + r" c\)\.(" + WORD + ")", text):
                self.cited.add(n)
            # the place that a helper takes
            if not goal:
                for h, q in self.takes.items():
                    q = self.tied(q)
                    if q in self.info:
                        text = re.sub(r"(?<![^\s(])" + re.escape(h) + r" c((?:\.before)*)(?=[\s)]|$)(?! *(?:=|:))", lambda m: h + " " + (("c") if q == at else self.chain(at, q)), text)
        places = {"c"} | set(re.findall(r"(?:let |\()(" + WORD + r") : tie\.(?!Need)", text))
        places |= set(re.findall(r"let (" + WORD + r") = c(?:\.before)* in", text))
        places |= set(m[0] for m in re.findall(r"let (" + WORD + r") = \(?(" + WORD + r") ", text) if m[1] in self.projections)

        def one(m):
            var, segs = m[1], m[2].split(".")[1:]
            if var != "tie" and var not in places:
                return var + "".join("." + ("invariant" if s == "inv" else self.words.get(plain(s), s) if "-" in s else s) for s in segs)
            if var == "tie":
                name = self.tied(".".join(segs))
                if name.startswith(("invariant-", "decreases-")):
                    return "goal." + name
                self.cited.add(name)
                return name + "\0"
            path = self.path(segs)
            if not path:
                return var + "".join("." + s for s in segs)
            if path == segs and segs[0] != "before":
                return m[0]
            return ".".join([var] + path)

        text = re.sub(r"(?<![^\s(){};,\[\]\\λ←])(" + WORD + r")((?:\.[^\s(){}.;,\[\]]+)+)", one, text)
        # fields behind a bracket: (start c).args
        def behind(m):
            segs = m[1].split(".")[1:]
            # the bracket that is closed here
            k, deep = m.start() - 1, 0
            while k >= 0:
                deep += (m.string[k] == ")") - (m.string[k] == "(")
                if deep == 0:
                    break
                k -= 1
            head = re.match(WORD, m.string[k + 1:])
            if head and head[0] in self.projections:
                path = self.path(segs)
                return "".join("." + s for s in path) if path else m[1]
            return "".join("." + (self.words.get(plain(s), s) if "-" in s else s) for s in segs)

        text = re.sub(r"(?<=\))((?:\.[^\s(){}.;,\[\]]+)+)", behind, text)
        # a place from one further in is found by its type
        text = re.sub(r"^((?:abbrev )?" + WORD + r" : tie\.[^\n]*→ tie\.[^\n]*\n" + WORD + r" " + WORD + r" =)\s*\(?[^\n]*$", r"\1 search", text) if re.search(r"^(?:abbrev )?" + WORD + r" : [^\n]*→ tie\.", text) else text
        # a place has the invariants and measures already
        text = re.sub(r"\0((?: [^\s(){}]*(?:invariant|decreases|Inv|μ)[^\s(){}]*)*)", "", text)
        text = re.sub(r"\.t(\d+)(?![\w-])", lambda m: "." + self.own["params"][int(m[1]) - 1] if 0 < int(m[1]) <= len(self.own.get("params", [])) else m[0], text)
        # what a test of !x says is said of x
        text = re.sub(r"not-(?:true|false) (?:_|\S+) (c\.if-not-[^\s()]+\.(?:true|false))", r"\1", text)
        # names for a contract, or for what a call ensures
        for m in re.finditer(r"let (" + WORD + r") = " + r"([^\s(){};,\[\]]+)\.(requires|ensures) in", text):
            var, path, kind = m[1], m[2].split("."), m[3]
            of = self.own if kind == "requires" else self.callees.get(path[-1])
            if of and len(of[kind]) > 1:
                text = re.sub(r"(?<![^\s(){};,\[\]])" + re.escape(var) + r"((?:\.\d)+)(?![\w])", lambda d: var + "." + ".".join(self.clause(of, kind, d[1].split(".")[1:])), text)
        return text


def main_turn(names, crate):
    with open(names, encoding="utf-8") as f:
        listed = json.load(f)
    words = source_words(os.path.abspath(crate))
    name_of = os.path.basename(os.path.abspath(crate))
    root = os.path.normpath(os.path.join(os.path.abspath(crate), "../.."))
    all_clauses = were(root, clauses(root))
    for path in sorted(glob.glob(os.path.join(crate, "proofs/**/Proof.antt"), recursive=True)):
        folder = os.path.dirname(path)
        local = os.path.relpath(folder, os.path.join(crate, "proofs")).replace("/", ".")
        key = [k for k in listed if k.startswith("Rattle-") and k.split("-proofs.", 1)[-1] == local + ".Lts"]
        if len(key) != 1:
            print(f"{path}: no names")
            continue
        own = all_clauses.get(name_of + "::" + local.replace(".", "::").replace("+", ""), {"requires": [], "ensures": [], "params": [], "was": {"requires": 0, "ensures": 0}})
        of_listed = listed[key[0]]
        needs_too = {}
        fn = Function(of_listed, words, own, all_clauses)
        with open(path, encoding="utf-8") as f:
            text = f.read()
        text = re.sub(r"(?<![^\s(])Place (tie\.[^\s)]+)", r"\1", text)
        text = re.sub(r"\n(?:--[^\n]*\n)*abbrev Place : [^\n]*\nPlace [^\n]*\n", "\n", text)
        head, found = blocks(text)
        comment = [l for l in head if l.startswith("--") and "Assumes nothing" not in l]
        uses = [l for l in head if l.startswith("use ") and not l.endswith((".Statement.{statement}", ".Tie as tie"))]
        rename, invariants, answers, helpers, unknown = {}, [], {}, [], []
        loops = [new for (new, _, _) in dict.fromkeys((v[0], None, None) for v in fn.loops.values())]
        spec = None
        for block in found:
            notes = [l for l in block if l.startswith("--")]
            code = [l for l in block if not l.startswith("--")]
            m = HEAD.match(code[0])
            if not m:
                helpers.append((None, block))
                continue
            marks, name, kind = m[1], m[2], m[3]
            if re.search(r"[-_]spec$", name) and "statement" in kind:
                spec = "\n".join(code)
                continue
            t = re.match(r"tie\.(invariant|decreases)-(" + WORD + ")", kind)
            if t and t[2] and plain(t[2]) in fn.loops:
                new, of_vars, changed = fn.loops[plain(t[2])]
                rename[name] = f"goal.the-{t[1]}-{new}"
                body = "\n".join(code[1:])
                lhs, rhs = body.split("=", 1)
                params = lhs.split()[1:]
                values = [("l.initial." + v) if ch else ("l." + v) for v, ch in zip(of_vars, changed)] + ["l." + v for v, ch in zip(of_vars, changed) if ch]
                if len(params) != len(values):
                    unknown.append(name + ": parameters " + " ".join(params) + " for " + " ".join(values))
                by = dict(zip(params, values))
                rhs = re.sub(r"(?<![^\s(){};,\[\]])(" + WORD + ")", lambda w: by.get(w[1], w[1]), rhs)
                invariants.append("\n".join(notes + [f"abbrev pub {t[1]}-{new} : goal.{t[1]}-{new}"] + [l for l in []] + [f"{t[1]}-{new} l ={rhs}".rstrip()]))
                continue
            t = re.match(r"tie\.Need-(" + WORD + ")", kind)
            if t:
                answers[name] = (t[1], notes, code)
                continue
            helpers.append((name, block))
            g = re.match(r"\(" + WORD + r" : tie\.([^\s)]+)|tie\.([^\s)]+) →", kind)
            if g:
                fn.takes[name] = g[1] or g[2]
            g = re.match(r"^tie\.([^\s)]+)[^→]*→ tie\.((?!Need)[^\s)]+)[^→]*$", kind)
            if g:
                fn.projections.add(name)
                fn.results[name] = (g[1], g[2])
        # which answer is for which goal: by the places in the list that closes the proof
        given = {}
        if spec:
            inner = spec[spec.index("tie.spec") + len("tie.spec"):].strip()
            args, deep, now = [], 0, ""
            for ch in inner + " ":
                if ch in "([{":
                    deep += 1
                if ch in ")]}":
                    deep -= 1
                    if deep < 0:
                        break
                if ch.isspace() and deep == 0:
                    if now:
                        args.append(now)
                    now = ""
                else:
                    now += ch
            if now:
                args.append(now)
            args = [a for a in args if a not in rename]
            given["args"] = args
            named = [a for a in args]
            if len(named) == len(fn.needs):
                for a, (old, new) in zip(named, fn.needs):
                    given[new] = a
            else:
                unknown.append(f"{len(named)} answers for {len(fn.needs)} goals: {' '.join(n for _, n in fn.needs)}")
        else:
            unknown.append("no closing line")
        def with_renames(s):
            for a, b in rename.items():
                s = re.sub(r"(?<![^\s(])" + re.escape(a) + r"(?![^\s).])", b, s)
            return s
        store = {}
        for goal, a in given.items():
            if goal == "args":
                continue
            if a in answers:
                t, notes, code = answers[a]
                lines = "\n".join(code).split("\n")
                rest = []
                for l in lines[1:]:
                    if l.startswith(a + " "):
                        l = goal + " " + re.sub(r"^c\s+κs\b", "c", l[len(a) + 1:])
                    rest.append(l)
                body = "\n".join(rest)
                k = body.index("=") if "=" in body else 0
                pre, post = body[: k + 1], body[k + 1:]
                store[goal] = "\n".join(notes + [f"pub {goal} : goal.{goal}"]) + "\n" + pre + with_renames(fn.term(post, True, goal))
            else:
                m = re.match(r"^\(λ c(?: κs)?\.\s*(.*)\)$", a, re.S)
                if m:
                    if m[1].strip() in ("search rules",):
                        continue
                    store[goal] = f"pub {goal} : goal.{goal}\n{goal} c = " + with_renames(fn.term(m[1].strip(), True, goal))
                else:
                    # an answer given by a helper of that type
                    store[goal] = f"pub {goal} : goal.{goal}\n{goal} c = {a} c.before"
        for goal in list(store):
            names = []
            if goal.startswith("returns") and "-clause-" not in goal:
                names = own["ensures"]
            elif goal in fn.called_at:
                names = fn.called_at[goal]["requires"]
            elif "-requires" in goal:
                step = goal.split("-requires")[0]
                for s, c in fn.callees.items():
                    if (s == step or s.split("-")[0] == step.split("-")[0]) and len(c["requires"]) > 1:
                        names = c["requires"]
                        if s == step:
                            break
            if names:
                k = store[goal].index("\n" + goal)
                e = store[goal].index("=", k) + 1
                store[goal] = store[goal][:e] + named_record(store[goal][e:], names)
        # a place that a helper takes is found by its type
        kept, takes = [], {}
        for name, block in helpers:
            if name in fn.results:
                continue
            kept.append([name, with_renames(fn.term("\n".join(block), False))])
        for name, text in kept:
            m = re.match(r"^(?:--[^\n]*\n)*(?:pub )?(?:abbrev )?" + WORD + r"\s*:\s*\((" + WORD + r") : ((?:After|Then|Else|In|At|Own)-[^\s)]+|Start)", text)
            if m:
                takes[name] = m[2]
        # a helper that another one calls further in, where its place cannot be named there: what it says, once more
        final = {}
        for pair in kept:
            name, text = pair
            if name is None:
                continue
            for h in list(takes):
                if h not in final or not fn.info.get(takes[h], (None, True))[1]:
                    continue
                if not re.search(r"(?<![^\s(])" + re.escape(h) + r" \(search\)", text):
                    continue
                if final[h] is None:
                    print(f"  {h} is called in {name} and cannot be written there")
                    continue
                kind, body = final[h]
                k = text.index("\n" + name + " ") if "\n" + name + " " in text else 0
                delta, now = 0, takes.get(name)
                while now in fn.info and now != takes[h]:
                    now, delta = fn.info[now][0], delta + 1
                if now == takes[h]:
                    delta += fn.info[takes[name]][1] - fn.info[takes[h]][1]
                new = re.sub(r"(?<![\w.])c((?:\.before)+)(?![\w.])", lambda m: "c" + m[1] + ".before" * delta, f"(let {h}' : {kind} = {body} in {h}')")
                text = text[:k] + re.sub(r"(?<![^\s(])" + re.escape(h) + r" \(search\)", lambda m: new, text[k:])
            pair[1] = text
            m = re.match(r"^(?:--[^\n]*\n)*" + re.escape(name or "?") + r" : \(c : [^\s)]+\)\s+→ (.*?)\n" + re.escape(name or "?") + r" c((?: [^\s=]+)*) =(.*)$", text, re.S)
            if m and "\n  where" not in m[3] and "\n" + str(name) + " " not in m[3]:
                body = " ".join(l.strip() for l in m[3].strip().split("\n"))
                for h in list(takes):
                    cite = r"(?<![^\s(])" + re.escape(h) + r" c(?=[\s)]|$)"
                    if final.get(h) and takes[h] == takes.get(name) and re.search(cite, body):
                        body = re.sub(cite, lambda m: f"(let {h}' : {final[h][0]} = {final[h][1]} in {h}')", body)
                final[name] = (" ".join(m[1].split()), f"λ{m[2]}. {body}" if m[2] else body)
            else:
                final[name] = None
        placed = {new: at[1] for (old, new), at in zip(of_listed["needs"], of_listed["asked_at"])}
        local_goal = {a: g for g, a in given.items() if g != "args" and a in answers}
        for goal in list(store):
            store[goal] = store[goal].replace("goal.at.\x01", "goal.at." + goal)
            k = store[goal].index("=", store[goal].index("\n" + goal)) + 1
            top, store[goal] = store[goal][:k], store[goal][k:]
            for a, g in local_goal.items():
                if g == goal:
                    continue
                cite = re.compile(r"(?<![^\s(){};,\[\]])" + re.escape(a) + r" (?:\(search\)|c(?:\.before)*(?=[\s)])|c(?:\.before)*$|" + WORD + r"|\([^()]*\))")
                if cite.search(store[goal]):
                    store[goal] = cite.sub(lambda m: f"{g} (goal.at.{goal} c).{placed[g]}", store[goal])
                    fn.cited.add(placed[g])
                    needs_too.setdefault(goal, []).append(g)
            store[goal] = top + store[goal]
            for h, place in takes.items():
                store[goal] = re.sub(r"(?<![^\s(])" + re.escape(h) + r" (?:\(search\)|c(?:\.before)*(?=[\s)])|c(?:\.before)*$)", f"{h} (goal.at.{goal} c).{place}", store[goal])
        left = {n: "\n".join(v[1] + v[2]) for n, v in answers.items() if n not in given.values()}
        out = os.path.join(crate, "out/port", local)
        os.makedirs(out, exist_ok=True)
        with open(os.path.join(out, "store.json"), "w", encoding="utf-8") as f:
            json.dump({"comment": comment, "uses": uses, "store": store, "helpers": kept, "left": left, "unknown": unknown, "cited": sorted(fn.cited), "needs_too": needs_too, "crate": name_of, "local": local, "folder": os.path.relpath(folder, crate)}, f, ensure_ascii=False, indent=1)
        os.replace(path, os.path.join(out, "Proof.antt"))
        for u in unknown:
            print(f"{local}: {u}")
        if invariants:
            body = "\n\n".join(invariants)
            public, more = [], True
            while more:
                more = False
                for pair in list(kept):
                    name, text = pair
                    if name is None:
                        m = re.search(r"^(?:pub )?(?:record|data) (" + WORD + ")", text, re.M)
                        name = m[1] if m else None
                    if name and name not in public and re.search(r"(?<![^\s(){};,.\[\]])" + re.escape(name) + r"(?![^\s(){};,\[\]])", body):
                        public.append(name)
                        if re.search(r"^record", text, re.M):
                            text = re.sub(r"^record", "pub record", text, flags=re.M)
                            text = re.sub(r"^  (?=[^\s(-]+ :)", "  pub ", text, flags=re.M)
                        else:
                            text = re.sub(r"^(abbrev |unfoldable )?(?!pub )(?=" + re.escape(name) + r" :)", lambda m: (m[1] or "") + "pub ", text, flags=re.M)
                        body = text + "\n\n" + body
                        kept.remove(pair)
                        more = True
            if public:
                with open(os.path.join(out, "store.json"), encoding="utf-8") as f:
                    s = json.load(f)
                s["helpers"], s["public"] = kept, public
                with open(os.path.join(out, "store.json"), "w", encoding="utf-8") as f:
                    json.dump(s, f, ensure_ascii=False, indent=1)
            used = [u for u in trimmed(uses, body)]
            with open(os.path.join(folder, "Invariants.antt"), "w", encoding="utf-8") as f:
                f.write("\n".join(comment + used + [f"use Rattle.{name_of}.proofs.{local}.Given as goal", "", body, ""]))


def trimmed(uses, body):
    out = []
    tokens = set(re.findall(WORD, body))
    for u in uses:
        m = re.match(r"^(use .*\.)\{(.*)\}$", u)
        if not m:
            last = u.split()[-1].split(".")[-1]
            if re.search(r"(?<![\w.])" + re.escape(last) + r"\.", body):
                out.append(u)
            continue
        names = []
        for n in m[2].split(", "):
            base = n.split(" as ")[-1]
            parts = [p for p in base.split("◌") if p]
            if all((p in tokens) or (p in body and not p.isalnum()) for p in parts):
                names.append(n)
        if names:
            out.append(m[1] + "{" + ", ".join(names) + "}")
    return out


def take(said, crate):
    with open(said, encoding="utf-8") as f:
        text = f.read()
    opens = {}
    for m in re.finditer(r"^fn (\S+): no proof: [^\n]*?`search` did not prove ([^\n]*)$", text, re.M):
        names = re.findall(r"`([^`]+)`", m[2].split('; ')[0])
        opens[m[1]] = names
    for path in sorted(glob.glob(os.path.join(crate, "out/port/*/store.json"))):
        with open(path, encoding="utf-8") as f:
            s = json.load(f)
        fn = s["crate"] + "::" + s["local"].replace(".", "::").replace("+", "")
        goals = opens.get(fn)
        if goals is None:
            continue
        write(s, crate, goals)


def write(s, crate, goals):
    file = os.path.join(crate, s["folder"], "Answers.antt")
    have, had = "", []
    if os.path.exists(file):
        with open(file, encoding="utf-8") as f:
            have = f.read()
        had = re.findall(r"^pub (\S+) : goal\.", have, re.M)
    goals = [g for g in goals if g not in had]
    more = True
    while more:
        more = False
        for g in list(goals):
            for n in s["needs_too"].get(g, []):
                if n not in had and n not in goals:
                    goals.append(n)
                    more = True
    order = list(s["store"])
    goals.sort(key=lambda g: order.index(g) if g in order else len(order))
    known = [s["store"][g] for g in had if g in s["store"]]
    parts = []
    for g in had + goals:
        whole = re.sub(r"-clause-.*$", "", g)
        if g in s["store"]:
            parts.append(s["store"][g])
        elif whole in s["store"]:
            if not any(p.find(f"pub {whole} : ") >= 0 for p in parts):
                parts.append(s["store"][whole])
        else:
            parts.append(f"pub {g} : goal.{g}\n{g} c = ?")
            print(f"{s['local']}: no answer kept for {g}; kept: {' '.join(s['store'])}")
    body = "\n\n".join(parts)
    # the helpers that they need, in order
    need, again = set(), True
    while again:
        again = False
        for name, text in s["helpers"]:
            first = re.search(r"^(?:pub )?(?:record|data|module|ruleset) (" + WORD + ")", text, re.M) if name is None else None
            label = name or (first[1] if first else "?")
            if label in need:
                continue
            cited = body + "\n".join(t for n, t in s["helpers"] if t in need)
            if label == "?" or re.search(r"(?<![^\s(){};,\[\]])" + re.escape(label) + r"(?![^\s(){};,.\[\]])", cited):
                need.add(label)
                need.add(text)
                again = True
    helpers = [t for n, t in s["helpers"] if t in need]
    whole = "\n\n".join(helpers + parts)
    uses = trimmed(s["uses"], whole)
    uses += [f"use Rattle.{s['crate']}.proofs.{s['local']}.Goals as goal"]
    places = [p for p in s["cited"] if re.search(r"(?<![^\s(){};,.\[\]])" + re.escape(p) + r"(?![^\s(){};,.\[\]])", whole)]
    if places:
        uses += [f"use Rattle.{s['crate']}.proofs.{s['local']}.Goals." + "{" + ", ".join(places) + "}"]
    if s.get("public"):
        got = [n for n in s["public"] if re.search(r"(?<![^\s(){};,.\[\]])" + re.escape(n) + r"(?![^\s(){};,.\[\]])", whole)]
        if got:
            uses += [f"use Rattle.{s['crate']}.proofs.{s['local']}.Invariants." + "{" + ", ".join(got) + "}"]
    os.makedirs(os.path.dirname(file), exist_ok=True)
    comment = s["comment"] if not os.path.exists(os.path.join(os.path.dirname(file), "Invariants.antt")) or True else []
    with open(file, "w", encoding="utf-8") as f:
        f.write("\n".join(comment + uses + ["", whole, ""]))


if __name__ == "__main__":
    if sys.argv[1] == "--take":
        take(*sys.argv[2:4])
    else:
        main_turn(*sys.argv[1:3])
