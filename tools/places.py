#!/usr/bin/env python3
"""The places of a point of docs/DESIGN-PASS.md in crates/*/src: python3 tools/places.py POINT [FOLDER], FOLDER being a checkout (else this one).

1  own enums of the shape of Result; constants that are a refusal's number; functions that answer 0 for no refusal; a flag beside the value that it
   speaks of; tests of a kind, a shape or a mark by its number
2  functions whose bodies are the same text once names, types and numbers are taken out, of twelve words or more, or shorter with the same name in two
   modules
3  loops that count an index by hand
4  identifiers compared by their numbers; bytes put together and taken apart by hand; functions that match an enum for each answer of a test; larger and
   smaller of two by hand
5  facts of specs/ in the requires of three functions or more; three parameters or more that stand together in three functions or more
6  two tables by one index in one function's parameters; a count beside the slice that it counts
7  a bool parameter that says which step to run
"""
import collections, glob, os, re, sys

ROOT = sys.argv[2] if len(sys.argv) > 2 else os.path.join(os.path.dirname(os.path.abspath(__file__)), "..")
POINT = sys.argv[1] if len(sys.argv) > 1 else ""

FN = re.compile(r"^(\s*)(?:pub(?:\(crate\))? )?(?:extern \"C\" )?(?:const )?fn (\w+)(<[^>(]*>)?\(")


def files():
    for path in sorted(glob.glob(os.path.join(ROOT, "crates/*/src/**/*.rt"), recursive=True)):
        yield os.path.relpath(path, ROOT), open(path).read().split("\n")


def functions():
    """(file, line, name, parameters, clauses, body) of each function"""
    for path, lines in files():
        for n, line in enumerate(lines):
            m = FN.match(line)
            if not m:
                continue
            ind = m.group(1)
            end = n
            while end < len(lines) and lines[end].rstrip() != ind + "}":
                end += 1
            text = lines[n:end]
            opening = next((k for k, l in enumerate(text) if l.strip() == "{" or l.rstrip().endswith("{") and "ensures" not in l), len(text) - 1)
            head = "\n".join(text[: opening + 1])
            depth, start, stop = 0, head.index("("), len(head)
            for k in range(start, len(head)):
                depth += {"(": 1, ")": -1}.get(head[k], 0)
                if depth == 0:
                    stop = k
                    break
            yield path, n + 1, m.group(2), head[start + 1 : stop], head[stop:], [re.sub(r"//.*", "", l) for l in text[opening + 1 :]]


def parameters(text):
    return [(m.group(1), m.group(2).strip()) for m in re.finditer(r"(?:mut )?(\w+): ([^,]+?)(?=,|$)", re.sub(r"\s+", " ", text))]


def grep(pattern, crates=None):
    for path, lines in files():
        if crates and path.split("/")[1] not in crates:
            continue
        for n, line in enumerate(lines):
            code = re.sub(r"//.*", "", line)
            if code.startswith("ghost") or re.match(r"\s*(requires|ensures)\b", code) or "≡" in code:
                continue
            if re.search(pattern, code):
                yield "%s:%d: %s" % (path, n + 1, code.strip())


def point1():
    yield "enums of the shape of Result", [l for l in grep(r"^\s*Refused\(\w+\),")]
    yield "constants for a refusal's number", list(grep(r"pub const \w+: u16 = \d+"))
    zero = [(p, n, f) for p, n, f, ps, cl, b in functions() if re.search(r"-> u16", cl) and re.search(r"fault|admit|misplaced", f)]
    yield "functions that answer 0 for no refusal", ["%s:%d: %s" % z for z in zero]
    flag = [(p, n, f) for p, n, f, ps, cl, b in functions() if "sends: bool" in ps and re.search(r"\btable: &", ps)]
    yield "a flag beside the value that it speaks of", ["%s:%d: %s" % z for z in flag]
    kinds = list(grep(r"\bkind\w*(\([^()]*\))? *(==|!=|<=?|>=?) *\d|\d+ *(<=?|>=?|==) *[\w.:]*kind\w*\b|\b[\w]+ == kind\b"))
    yield "tests of a kind by its number", kinds
    shapes = list(grep(r"\b(shape|mark) *== *\d")) + ["%s:%d: %s" % (p, n, f) for p, n, f, ps, cl, b in functions() if re.search(r"\b(shape|mark): u16", ps)]
    shapes += list(grep(r"^\s*pub (shape|mark): u16"))
    yield "shapes and marks as numbers", shapes


def words(lines):
    out = []
    names = {}
    for w in re.findall(r"[A-Za-z_]\w*|\d+|[^\s\w]", " ".join(lines)):
        if re.match(r"\d", w):
            out.append("0")
        elif re.match(r"[A-Za-z_]", w) and w not in ("while", "if", "else", "return", "let", "mut", "for", "in", "match", "as", "true", "false"):
            out.append(names.setdefault(w, "n%d" % len(names)))
        else:
            out.append(w)
    return out


def point2():
    groups = collections.defaultdict(list)
    small = collections.defaultdict(list)
    for path, n, name, ps, cl, body in functions():
        w = words(body)
        if len(w) >= 12:
            groups[" ".join(w)].append("%s:%d: %s" % (path, n, name))
        else:
            small[name + " " + " ".join(w)].append("%s:%d: %s" % (path, n, name))
    twins = [v for v in groups.values() if len(v) > 1] + [v for v in small.values() if len(v) > 1]
    yield "functions with one text", [x for v in twins for x in v + ["  --"]]


def point3():
    yield "loops by hand", list(grep(r"^\s*while "))


def point4():
    yield "identifiers compared by their numbers", list(grep(r"\b[a-z]\w*\.0 *(==|!=) *\w+(\.\w+)*\b|\w+(\(.*\))?\.0 *(==|!=)"))
    yield "bytes put together or taken apart", list(grep(r"256 \* \(|% 256\) as u8|/ 256"))
    every = [(p, n, f) for p, n, f, ps, cl, b in functions() if len([l for l in b if re.search(r"::\w+(\(.*\))? => (true|false),", l)]) > 2]
    yield "a test that matches each case", ["%s:%d: %s" % z for z in every]
    two = [(p, n, f) for p, n, f, ps, cl, b in functions() if f in ("larger", "smaller", "at_most", "max", "min")]
    yield "the larger or smaller of two", ["%s:%d: %s" % z for z in two]


def point5():
    facts = collections.defaultdict(set)
    groups = collections.defaultdict(set)
    for path, n, name, ps, cl, body in functions():
        here = "%s:%d: %s" % (path, n, name)
        requires = "\n".join(re.findall(r"requires(?: \w+)? \{(.*?)\}\n", cl, re.S))
        for fact in set(re.findall(r"\b([A-Z]\w+)\b", requires)):
            facts[fact].add(here)
        names = [a for a, t in parameters(ps)]
        for k in range(3, len(names) + 1):
            for s in range(len(names) - k + 1):
                groups[tuple(names[s : s + k])].add(here)
    yield "facts in the requires of three functions or more", ["%s: %d functions" % (f, len(v)) for f, v in sorted(facts.items()) if len(v) > 2]
    whole = {g: v for g, v in groups.items() if len(v) > 2}
    longest = [g for g in whole if not any(len(h) > len(g) and whole[h] >= whole[g] and any(h[i : i + len(g)] == g for i in range(len(h) - len(g) + 1)) for h in whole)]
    yield "parameters that stand together", ["%s: %d functions" % (", ".join(g), len(whole[g])) for g in sorted(longest, key=lambda g: -len(g))]


def point6():
    pairs = [("seen", "writes"), ("sizes", "chosen"), ("read", "written"), ("marks", "lasts")]
    both = [(p, n, f + " (%s, %s)" % q) for p, n, f, ps, cl, b in functions() for q in pairs if all(re.search(r"\b%s: &" % x, ps) for x in q)]
    yield "two tables by one index", ["%s:%d: %s" % z for z in both]
    count = [(p, n, f) for p, n, f, ps, cl, b in functions() if re.search(r"list: &[^,]*,", ps) and re.search(r"\b(count|found): usize", ps)]
    yield "a count beside the slice that it counts", ["%s:%d: %s" % z for z in count]


def point7():
    step = [(p, n, f) for p, n, f, ps, cl, b in functions() if re.search(r"\b(short|writing|sends|whole|wanted): bool", ps)]
    yield "a bool that says which step to run", ["%s:%d: %s" % z for z in step]


total = 0
for title, places in globals()["point" + POINT]():
    count = len([p for p in places if p != "  --"])
    total += count
    print("%s: %d" % (title, count))
    for p in places:
        print("  " + p)
print("in all: %d" % total)
