#!/usr/bin/env python3
"""Lists the places of the code that docs/DESIGN-PASS.md counts:  python3 tools/places.py [--list] [POINT]

It reads crates/*/src (but the constants of `priority`, which are numbers alone) and, for point 8, crates/*/proofs. Without --list it prints a
line of counts for each point; with it the places too. The points are those of the page. It goes by the text: what it lists is to be read.
"""

import collections
import glob
import re
import sys

LISTED = "--list" in sys.argv[1:]
WANTED = [int(a) for a in sys.argv[1:] if a.isdigit()]


def sources():
    for path in sorted(glob.glob("crates/*/src/**/*.rt", recursive=True)):
        if not path.endswith(("priority/src/values.rt", "priority/src/constants.rt")):
            yield path, open(path, encoding="utf-8").read()


def line_of(text, at):
    return text.count("\n", 0, at) + 1


FUNCTION = re.compile(r"(?:^|\n)((?: *//[^\n]*\n)*)( *)(?:pub )?(?:extern \"C\" )?fn (\w+)(<[^>]*>)?\(([^)]*)\)")


def functions():
    """Each function: its file, line, name, comment, parameters (name, type), clauses, body."""
    for path, text in sources():
        for m in FUNCTION.finditer(text):
            rest = text[m.end():]
            indent = m.group(2)
            close = re.match(r"[^\n]*\{[^{}\n]*\}\n", rest) or re.search(r"\n" + indent + r"\}(?=\n|$)", rest)
            whole = rest[: close.end()] if close else rest
            opened = re.search(r"\n" + indent + r"\{\n|\) (?:-> [^\n{]* )?\{\n|\{\n", whole)
            head, body = (whole[: opened.start()], whole[opened.end():]) if opened else (whole, "")
            clauses = re.findall(r"(requires|ensures) (?:\w+ )?\{ (.*) \}", head)
            params = [tuple(p.strip().split(":", 1)) for p in re.split(r",(?![^\[]*\])", m.group(5)) if ":" in p]
            params = [(n.strip(), t.strip()) for n, t in params]
            yield path, line_of(text, m.start(3)), m.group(3), m.group(1), params, clauses, body


def show(point, counts, places=()):
    if WANTED and point not in WANTED:
        return
    print(f"{point}: " + "; ".join(f"{name} {number}" for name, number in counts))
    if LISTED:
        for place in places:
            print("    " + place)


def kinds():
    enums, plain = [], []
    for path, text in sources():
        for m in re.finditer(r"^ *(?:pub )?enum (\w+)", text, re.M):
            enums.append(f"{path}:{line_of(text, m.start(1))} enum {m.group(1)}")
    none = [f"{p}:{n} {f}: 0 for none" for p, n, f, c, ps, cl, b in functions()
            if re.search(r"\b(0|zero|zeros)\b[^.;]* (none|no table|where it ends|nothing)|\b(none|ends)\b[^.;]*\b(0|zero)\b", c, re.I)]
    numbers = [f"{p}:{n} {f}: a number for a kind" for p, n, f, c, ps, cl, b in functions()
               if any(k == "kind" and t == "u64" or k == "choice" for k, t in ps) or re.search(r"let choice = |fn number", b) or f == "number"]
    flags = [f"{p}:{n} {f}: a flag beside what it says is right" for p, n, f, c, ps, cl, b in functions()
             if any(re.match(r"result ≡ true →", cl_text) for _, cl_text in cl)]
    show(1, [("enums", len(enums)), ("functions with 0 for none", len(none)), ("numbers for kinds", len(numbers)), ("flags beside values", len(flags))],
         enums + none + numbers + flags)


def shape(text):
    text = re.sub(r"//[^\n]*", "", text)
    text = re.sub(r"\b[a-z_]\w*\b(?!\s*[({!])", "v", text)
    text = re.sub(r"\b(?!if|while|for|match|return|let|else|fn)\w+\b", "v", text)
    return re.sub(r"\s+", " ", text)


def twins():
    found = collections.defaultdict(list)
    for p, n, f, c, ps, cl, b in functions():
        if len(re.findall(r"[^\s]", b)) > 30:
            found[(len(ps), shape(b))].append(f"{p}:{n} {f}")
    types = collections.defaultdict(list)
    for path, text in sources():
        for m in re.finditer(r"^(?:pub )?enum (\w+) (\{[^}]*\})", text, re.M):
            types[re.sub(r"\s+", " ", re.sub(r"//[^\n]*|\w+(?=[(,])", "", m.group(2)))].append(f"{path}:{line_of(text, m.start(1))} enum {m.group(1)}")
    groups = [g for g in found.values() if len(g) > 1]
    same = [g for g in types.values() if len(g) > 1]
    show(2, [("groups of functions of one shape", len(groups)), ("functions in them", sum(map(len, groups))), ("types of one shape", sum(map(len, same)))],
         [" ~ ".join(g) for g in groups + same])


def loops():
    whiles, ranges, others = [], [], []
    for path, text in sources():
        for m in re.finditer(r"^ *(while|for|loop)\b([^\n]*)", text, re.M):
            place = f"{path}:{line_of(text, m.start(1))} {m.group(0).strip()}"
            if m.group(1) != "for":
                whiles.append(place)
            elif re.search(r" in [^\[{]*\.\.", m.group(2)):
                ranges.append(place)
            else:
                others.append(place)
    show(3, [("while", len(whiles)), ("for over a range", len(ranges)), ("for over items", len(others))], whiles + ranges)


def by_hand():
    derives = collections.Counter()
    for path, text in sources():
        for m in re.finditer(r"derive\(([^)]*)\)", text):
            derives.update(x.strip() for x in m.group(1).split(","))
    wanted = r"same|equal|_is$|^is_(between|within)|larger|lesser|copy|clear|number$|wrapping|magnitude|tell|put_(bytes|spaces)|^(put|get|begin)$"
    places = [f"{p}:{n} {f}" for p, n, f, c, ps, cl, b in functions() if re.search(wanted, f)]
    show(4, [("functions whose name says so", len(places))] + sorted(derives.items()), places)


def together():
    facts = collections.defaultdict(set)
    pairs = collections.Counter()
    wide = []
    for p, n, f, c, ps, cl, b in functions():
        for _, text in cl:
            for part in re.split(r" × ", text):
                facts[re.sub(r"^\(|\)$", "", part.strip())].add((p, f))
        names = sorted({k for k, t in ps if k not in ("output", "at", "key")})
        pairs.update((a, b2) for i, a in enumerate(names) for b2 in names[i + 1:])
        if len(ps) > 7:
            wide.append(f"{p}:{n} {f}: {len(ps)} parameters")
    often = sorted(((len(v), k) for k, v in facts.items() if len(v) > 2), reverse=True)
    apart = sorted(((v, k) for k, v in pairs.items() if v > 9), reverse=True)
    show(5, [("facts in the clauses of three functions or more", len(often)), ("pairs of parameters that ten functions or more take", len(apart)),
             ("functions with more than seven parameters", len(wide))],
         [f"{n} functions: {k}" for n, k in often] + [f"{n} functions: {' and '.join(k)}" for n, k in apart] + wide)


def buffers():
    lengths = [f"{p}:{n} {f}: a list and how many of it count" for p, n, f, c, ps, cl, b in functions()
               if ("n", "usize") in ps and any(t.startswith("&") and "[" in t for _, t in ps)]
    beside = [f"{p}:{n} {f}: lists beside one another" for p, n, f, c, ps, cl, b in functions()
              if len([1 for k, t in ps if k in ("keys", "tags", "lengths", "corrections", "left", "right", "rank", "count", "leader")
                      and re.match(r"&(mut )?\[", t)]) > 1]
    show(6, [("a list and a number", len(lengths)), ("lists beside one another", len(beside))], lengths + beside)


def switches():
    places = [f"{p}:{n} {f}" for p, n, f, c, ps, cl, b in functions()
              if any(k in ("kind",) for k, t in ps) or re.search(r"if (choice|kind) ", b)]
    show(7, [("switches", len(places))], places)


def answers():
    files = sorted(glob.glob("crates/*/proofs/**/Answers.antt", recursive=True))
    many, again, lines = 0, [], 0
    for path in files:
        text = open(path, encoding="utf-8").read()
        many += len(re.findall(r"^pub ", text, re.M))
        bodies = collections.Counter()
        for m in re.finditer(r"^\S[^\n]* = ?(.*(?:\n(?: [^\n]*|$))*)", text, re.M):
            bodies[re.sub(r"\.\d+\)*\s*$", "", re.sub(r"\s+", " ", m.group(1)))] += 1
        repeated = sum(n - 1 for b, n in bodies.items() if n > 1 and len(b) > 60)
        if repeated:
            again.append(f"{path}: {repeated} answers that another has")
    for path in glob.glob("crates/*/proofs/**/*.antt", recursive=True):
        lines += sum(1 for _ in open(path, encoding="utf-8"))
    show(8, [("files of answers", len(files)), ("answers", many), ("answers that stand twice but for the part taken", sum(int(a.split()[1]) for a in again)),
             ("lines of proofs", lines)], again)


for point in (kinds, twins, loops, by_hand, together, buffers, switches, answers):
    point()
