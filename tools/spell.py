#!/usr/bin/env python3
"""Brings this repository's own names in contracts, specs/ and proofs/ to Rattle's spelling: words in snake case.

usage: tools/spell.py [--dry]      at the top, once, after port.py

A name of words loses its dashes and its inner capitals: `judgedBy` is `judged_by`, `head-past` is `head_past`. A dash stays where it
joins a type to a name (`All-shown`) or two names of definitions (`length-release_tlv`). Functions of src/, fields of structs, exported
names, strings, inputs and outputs keep theirs. Names that a file takes from a library of the kit keep theirs too.
"""

import collections
import glob
import os
import re
import sys

DRY = "--dry" in sys.argv
TOKEN = re.compile(r"[^\s(){}\[\];,.@|\"]+")
OWN = set(os.listdir("crates"))
WORDS = {"length", "take", "drop", "sum", "map", "at", "reverse", "set", "sets"}


def antts():
    return sorted(glob.glob("crates/*/specs/**/*.antt", recursive=True) + glob.glob("crates/*/proofs/**/*.antt", recursive=True))


def camel(n):
    """The name with each inner capital of a part that begins small as a small letter behind `_`."""
    parts = n.split("-")
    return "-".join(re.sub(r"(?<=[a-z0-9'])([A-Z])", lambda m: "_" + m.group(1).lower(), p) if re.match(r"[a-z]", p) else p for p in parts)


def declared():
    names, defs, fields = {}, set(), set()
    for p in antts():
        record = None
        for line in open(p):
            if line.lstrip().startswith("--"):
                continue
            indent = len(line) - len(line.lstrip())
            m = re.match(r"\s*(?:pub )?(record|data)\s", line)
            if m:
                record = indent
            elif record is not None and line.strip():
                if indent <= record:
                    record = None
                else:
                    m = re.match(r"\s*(?:pub )?([^\s:(){}]+(?:\s+[^\s:(){}]+)*)\s*:\s", line)
                    if m:
                        fields.update(m.group(1).split())
                    continue
            m = re.match(r"\s*(?:(abbrev pub|unfoldable pub|abbrev|unfoldable|pub ruleset|ruleset|pub)\s+)?([^\s:(){}=]+)\s*:\s", line) or re.match(r"\s*(pub ruleset|ruleset)\s+([^\s:(){}=]+)", line)
            if m:
                names.setdefault(m.group(2), set()).add(p)
                if m.group(1) and ("abbrev" in m.group(1) or "unfoldable" in m.group(1)):
                    defs.add(m.group(2))
    return names, defs, fields


NAMES, DEFS, FIELDS = declared()
# answers of Proof.antt have the names of goals, and go when they are turned
ANSWERS = {n for n, ps in NAMES.items() if all(p.endswith("/Proof.antt") for p in ps)}


def spelled(n):
    if "-" not in n and not re.search(r"[a-z0-9'][A-Z]", n):
        return n
    if any(re.match(r"[A-Z]", p) for p in n.split("-")):
        if "-" in n:
            head, rest = n.split("-", 1)
            return head + "-" + "_".join(camel(q) for q in rest.split("-")) if re.match(r"[A-Z]", head) else camel(n)
        return camel(n)
    for i, c in enumerate(n):
        if c == "-" and n[:i] in (WORDS | DEFS) and n[i + 1 :] in DEFS and (n[:i] in WORDS):
            return camel(n[:i]) + "-" + camel(n[i + 1 :].replace("-", "_"))
    return camel(n).replace("-", "_")


TURNED = {}
for n in list(NAMES) + list(FIELDS):
    if n in ANSWERS and "-" in n:
        continue
    if n.startswith("invariant-") or n.startswith("decreases-"):
        continue
    s = spelled(n)
    if s != n:
        TURNED[n] = s

# A lemma that would have its definition's name gets `_lem`; these had dashes before port.py ran.
for n in ["takes_one", "read_number", "line_as", "passed_on", "bit_word", "in_order"]:
    TURNED[n] = n + "_lem"
FALLEN = collections.defaultdict(set)
for n in NAMES:
    FALLEN[TURNED.get(n, n)].add(n)
for new, olds in FALLEN.items():
    for n in olds:
        if "-" in n and n in TURNED and len(olds) > 1:
            TURNED[n] = new + "_lem"

USE = re.compile(r"^\s*(?:pub )?use\s+(\S+?)(?:\.\{([^}]*)\})?(?:\s+as\s+(\S+))?\s*$")


def foreign(text):
    """The names that a file imports from the kit's libraries, and the aliases of own modules of lemmas."""
    out, aliases = set(), set()
    for line in text.splitlines():
        m = USE.match(line)
        if not m:
            continue
        own = re.match(r"Rattle\.(\w+)\.(specs|proofs)", m.group(1))
        mine = bool(own) and own.group(1) in OWN
        if m.group(2) is not None:
            if not mine:
                for it in m.group(2).split(","):
                    it = it.strip().split(" as ")
                    out.add(it[-1].strip())
        elif mine:
            last = m.group(3) or m.group(1).split(".")[-1]
            aliases.add(last)
    return out, aliases


CAMEL = re.compile(r"[a-z][a-z0-9]*(?:[A-Z]\w*)")
seen = collections.Counter()
problems = []


def turn_antt(text, path):
    out, aliases = foreign(text)
    have = set(TOKEN.findall(re.sub(r"--.*", "", text)))
    done = {}

    def one(tok, before):
        if tok in out:
            return tok
        if before.endswith("."):
            prefix = re.search(r"([^\s(){}\[\];,]+)\.$", before)
            last = prefix.group(1).split(".")[-1] if prefix else ""
            if tok in TURNED and (tok in FIELDS or last in aliases):
                new = TURNED[tok]
            elif "-" not in tok and re.match(r"[a-z]", tok) and re.search(r"[a-z0-9'][A-Z]", tok) and (tok in TURNED or tok in FIELDS):
                new = camel(tok)
            else:
                return tok
        elif tok in TURNED:
            new = TURNED[tok]
        elif re.match(r"[a-z]", tok) and re.search(r"[a-z0-9'][A-Z]", tok) and "-" not in tok:
            new = camel(tok)
        else:
            return tok
        if new != tok:
            done[tok] = new
        return new

    lines = []
    for line in text.split("\n"):
        code, dash, comment = line, "", ""
        m = re.search(r"(^|\s)--(\s|$)", line)
        if m:
            code, comment = line[: m.start()] + m.group(1), line[m.start() + len(m.group(1)) :]
        buf, i = [], 0
        for t in TOKEN.finditer(code):
            buf.append(code[i : t.start()])
            buf.append(one(t.group(0), code[: t.start()]))
            i = t.end()
        buf.append(code[i:])
        lines.append("".join(buf) + turn_prose(comment))
    for old, new in done.items():
        if new in have and new not in TURNED:
            problems.append(f"{path}: {old} and {new} stand there both")
    return "\n".join(lines)


def turn_prose(text):
    """In prose: names between backquotes, and names with inner capitals anywhere."""
    text = re.sub(r"`([^`\n]+)`", lambda m: "`" + re.sub(r"[^\s(){}\[\];,.@|\"]+", lambda t: TURNED.get(t.group(0), t.group(0)), m.group(1)) + "`", text)
    return re.sub(r"(?<![\w/.])[a-z][a-z0-9]*(?:[A-Z][a-z0-9]*)+\b", lambda m: TURNED.get(m.group(0), m.group(0)), text)


def turn_rt(text, path):
    """In sources: names with inner capitals, which stand in clauses and imports alone; names with dashes in `ghost use` lines and clauses."""
    out = []
    for line in text.split("\n"):
        m = re.match(r"\s*//", line)
        if m:
            out.append(turn_prose(line))
            continue
        line = re.sub(r"(?<![\w\"])[a-z][a-z0-9]*(?:[A-Z][a-zA-Z0-9]*)+(?![\w\"])", lambda m: TURNED.get(m.group(0), m.group(0)), line)
        if line.startswith("ghost use"):
            line = re.sub(r"[^\s(){}\[\];,.@|\"]+", lambda t: TURNED.get(t.group(0), t.group(0)), line)
        out.append(line)
    return "\n".join(out)


def main():
    # names that fall together
    by_new = collections.defaultdict(set)
    for n in NAMES:
        by_new[TURNED.get(n, n)].add(n)
    for new, olds in sorted(by_new.items()):
        if len(olds) > 1 and not all(o in ANSWERS for o in olds):
            print("fall together:", new, *sorted(olds), *sorted({p for o in olds for p in NAMES[o] if not p.endswith("/Proof.antt")})[:6])
    changed = {}
    for p in antts():
        t = open(p).read()
        changed[p] = (t, turn_antt(t, p))
    for p in sorted(glob.glob("crates/*/src/**/*.rt", recursive=True)):
        t = open(p).read()
        changed[p] = (t, turn_rt(t, p))
    for p in ["README.md", "CONTRIBUTING.md", "crates.txt"] + sorted(glob.glob("docs/**/*.md", recursive=True)):
        if os.path.exists(p) and p != "docs/PORT.md":
            t = open(p).read()
            changed[p] = (t, turn_prose(t))
    for it in problems:
        print("both:", it)
    n = 0
    for p, (old, new) in changed.items():
        if old != new:
            n += 1
            if not DRY:
                with open(p, "w") as f:
                    f.write(new)
    print(f"spell: {len(TURNED)} names, {n} files")


if __name__ == "__main__":
    main()
