#!/usr/bin/env python3
"""Lists the places of src/ that docs/DESIGN-PASS.md speaks of, point by point: tools/design.py [POINT]..

What it prints are candidates: the page says which of them were changed, and which stay and why."""
import re
import sys
from collections import defaultdict
from pathlib import Path

ROOT = Path(__file__).resolve().parent.parent
CRATES = ROOT / "crates"

# Truth values that say something by themselves, with no value beside them: what the protocol holds, an answer, a way to read.
TRUTHS = set("advertise enable willing error mode adopts syncd seen duplicate broken admin receive transmit several wish settled".split())


def files():
    return sorted(CRATES.glob("*/src/*.rt"))


def lines():
    """Each line of each source file without its comment: place, text."""
    for f in files():
        for n, text in enumerate(f.read_text().splitlines(), 1):
            yield f"{f.relative_to(CRATES)}:{n}", re.sub(r"^\s*//.*|\s//[^\"]*$", "", text)


def functions():
    """Each function: place, name, parameters as written, clauses, body."""
    for f in files():
        text = f.read_text()
        for m in re.finditer(r"^( *)(?:pub )?(?:final )?(?:extern \"C\" )?fn (\w+)", text, re.M):
            close = text.find("\n" + m[1] + "}", m.end())
            whole = text[m.start():close if close > 0 else len(text)]
            depth, at = 0, whole.index("(", len(m[0]))
            for at in range(at, len(whole)):
                depth += {"(": 1, ")": -1}.get(whole[at], 0)
                if depth == 0:
                    break
            parameters = whole[whole.index("(", len(m[0])) + 1:at]
            each = [" ".join(p.split()) for p in re.split(r",(?![^<(\[]*[>)\]])", parameters) if p.strip()]
            brace = re.search(r"\n" + m[1] + r"\{|\{\n", whole[at:])
            cut = at + (brace.start() if brace else 0)
            yield f"{f.relative_to(CRATES)}:{text.count(chr(10), 0, m.start()) + 1}", m[2], each, whole[at:cut], whole[cut:]


def types(kind):
    """Each struct or enum: place, name, its fields or variants with what they hold."""
    for f in files():
        text = f.read_text()
        for m in re.finditer(kind + r" (\w+)[^{;(]*\{\n(.*?)\n\}", text, re.S):
            yield f"{f.relative_to(CRATES)}:{text.count(chr(10), 0, m.start()) + 1}", m[1], re.findall(r"^    (?:pub )?(\w+)(.*)$", m[2], re.M)


def matching(pattern):
    return [f"{place}: {text.strip()}" for place, text in lines() if re.search(pattern, text)]


def point1():
    found = [f"{place}: struct {name}, flag {field}" for place, name, fields in types("struct")
             for field, rest in fields if rest.strip() == ": bool," and field not in TRUTHS]
    for place, name, variants in types("enum"):
        empty = [v for v, rest in variants if rest.strip() in ("", ",")]
        if len(variants) == 2 and len(empty) < 2 or set(v for v, _ in variants) & {"None", "Nothing", "Not", "Behind", "Unreadable"}:
            found.append(f"{place}: enum {name}: {', '.join(v for v, _ in variants)}")
    for place, name, parameters, clauses, body in functions():
        if len(re.findall(r"\w+::\w+(?:\([^)]*\))? => \[?\d+", body)) > 1 or re.search(r"_(part|field)$", name) and "return 2" in body:
            found.append(f"{place}: fn {name} gives a number for each case")
        elif re.search(r"\b(number|kind|refusal|silent|n) == [1-9]\d*\b", body) or re.search(r"\b(silent|refusal) == 0\b", body):
            found.append(f"{place}: fn {name} tests a number that stands for a case")
    return found


def point2():
    """Functions whose bodies have one shape, names and numbers aside; types whose fields have one type; types of one shape."""
    shapes = defaultdict(list)
    for place, name, parameters, clauses, body in functions():
        words = re.findall(r"b?\"[^\"]*\"|\w+|[^\w\s]", body)
        known, shape = {}, []
        for w in words:
            if re.match(r"[A-Za-z_]\w*$|\d+$|b?\"", w) and w not in "if return let mut match while for in".split():
                w = known.setdefault(w, f"@{len(known)}")
            shape.append(w)
        if len(words) >= 24:
            shapes[" ".join(shape)].append(f"{place}: fn {name}")
    found = ["; ".join(group) for group in shapes.values() if len(group) > 1]
    fields = defaultdict(list)
    for place, name, members in types("struct"):
        fields[" ".join(re.sub(r"\b[A-Z]\w*|\d+", "T", rest) for _, rest in members)].append(f"{place}: struct {name}")
        for t in set(rest for _, rest in members):
            if sum(rest == t for _, rest in members) > 2 and re.search(r"[A-Z]|\[", t):
                found.append(f"{place}: struct {name} has {sum(rest == t for _, rest in members)} fields {t.strip(' :,')}")
    variants = defaultdict(list)
    for place, name, members in types("enum"):
        variants[" ".join(v + rest for v, rest in members)].append(f"{place}: enum {name}")
    return found + ["; ".join(g) for g in list(fields.values()) + list(variants.values()) if len(g) > 1]


def point3():
    return matching(r"^\s*('\w+: )?(while|loop)\b(?! let)")


def point4():
    return matching(r"\bas (u8|u16|u32|u64|usize)\b") + [
        f"{place}: fn {name}" for place, name, parameters, clauses, body in functions()
        if re.match(r"(same_(parameters|setting|control|content)|wide|low|lower|bit|\w+_number|\w+_name|\w+_place|flag_of|port_flag|switches_of)$", name)]


def point5():
    """Parameters that travel together: in three functions or more, and seldom apart. Clauses of three functions or more."""
    having, pairs, clauses = defaultdict(set), defaultdict(set), defaultdict(set)
    for place, name, parameters, heads, body in functions():
        for p in parameters:
            having[p].add(place)
        for i, a in enumerate(parameters):
            for b in parameters[i + 1:]:
                pairs[a, b].add(place)
        for c in re.findall(r"requires \w* ?\{(.*)\}", heads):
            clauses[c.strip()].add(place)
    found = [(len(ps), f"{len(ps)} functions: {a}, {b}") for (a, b), ps in pairs.items()
             if len(ps) > 2 and len(ps) >= 0.8 * len(having[a] | having[b])]
    found += [(len(ps), f"{len(ps)} functions: requires {c}") for c, ps in clauses.items() if len(ps) > 2]
    found += [(len(pairs["out: &mut [u8]", "at: usize"]), f"{len(pairs['out: &mut [u8]', 'at: usize'])} functions: out: &mut [u8], at: usize")]
    return [text for n, text in sorted(found, reverse=True) if n]


def point6():
    return [f"{place}: struct {name}: {field}{rest}" for place, name, members in types("struct") for field, rest in members
            if re.match(r": \[.*; .*\],", rest) and any(re.match(r": (usize|u8),", r) for _, r in members)]


def point7():
    return [f"{place}: fn {name}" for place, name, parameters, clauses, body in functions()
            if len(re.findall(r"if \w+ == \d+ \{\n\s+return \w+(::\w+)*\(", body)) > 1]


def point8():
    return [str(p.relative_to(CRATES)) for p in sorted(CRATES.glob("*/proofs/**/Answers.antt"))]


def main():
    points = [point1, point2, point3, point4, point5, point6, point7, point8]
    for n in [int(a) for a in sys.argv[1:]] or range(1, 9):
        found = points[n - 1]()
        print(f"== {n}: {len(found)}")
        print("\n".join(found))


if __name__ == "__main__":
    main()
