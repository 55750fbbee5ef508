#!/usr/bin/env python3
"""Brings this repository's own definitions and lemmas to the spelling of today's Rattle. Run once, right after the kit's
port.py, at the top of the repository:  python3 tools/respell.py [--list]

- A function, a lemma, a field or a constructor in lower camel case turns to snake case: `byWeight` to `by_weight`.
- A lemma that would have its function's name gets `_lem`.
- In a name with dashes a dash stays where it joins the names of two functions (`member-map`, `keep-flat_map`); a plain word is
  added with `_` (`every_key_held`). Types and modules keep their names, and so do functions of src/ and names that Rattle makes.
- It turns whole words, in .antt files, in the clauses and ghost items of .rt files, in must-fail edits, and in code spans of
  comments and pages. With --list it prints the table and the names that would fall together, and writes nothing.
"""

import collections
import os
import re
import sys

# What would fall together with another name: the name that is taken instead.
INSTEAD = {
    "found-at": "found_at_lem",
    "held-at": "held_at_lem",
    "entry-at": "entry_at_lem",
}

# Lemmas that port.py has brought to the name that their function takes now, each in the files that name it.
LEMMAS = [
    ("done_all", "call_changes/proofs/Loading.antt", "call_load/proofs/Repeating.antt"),
    ("in_order", "treap_columns/proofs/Examples.antt"),
    ("in_left", "treap_structure/proofs/Paths.antt"),
    ("in_right", "treap_structure/proofs/Paths.antt"),
    ("tag_read", "table_decode/proofs/Collecting.antt", "table_decode/proofs/collect/Proof.antt"),
]

# Names of std's functions that lemmas are named after.
STD = set(
    "length append take drop map set get_or slice replicate reverse eqb ltb leb eq add sub mul div mod suc and or not xor cond sum"
    " flat_map foldr min max pow".split()
)

WORD = re.compile(r"[^\s(){}.;,@\"«»\[\]|`:\\]+")
CAMEL = re.compile(r"^[a-z][a-z0-9]*(?:[A-Z][a-z0-9]*)+('*|[₀-₉]*)$")
SIGNATURE = re.compile(r"^\s*(?:(?:abbrev|unfoldable|pub|mod|module)\s+)*([^\s(){}.;,@\"«»:]+)(?:\s*[({].*)?\s+:(?:\s|$)")


def files(root, *ends):
    for folder, dirs, names in os.walk(os.path.join(root, "crates")):
        dirs[:] = sorted(d for d in dirs if d != "out")
        for name in sorted(names):
            if name.endswith(ends):
                yield os.path.join(folder, name)


def read(path):
    with open(path, encoding="utf-8", newline="") as it:
        return it.read()


def snake(part):
    return re.sub(r"(?<=[a-z0-9])([A-Z])", lambda m: "_" + m.group(1).lower(), part)


def own(root):
    """The names that lemma files and specs declare, and the functions of specs/ that are spelled in camel case or stand in `lists`."""
    declared, functions = set(), set(STD)
    for path in files(root, ".antt"):
        hand = os.path.basename(path) == "Proof.antt"
        specs = "/specs/" in path
        for line in read(path).split("\n"):
            if re.match(r"^\s*--", line):
                continue
            for word in WORD.findall(line):
                if CAMEL.match(word):
                    declared.add(word)
            found = SIGNATURE.match(line)
            if found and not hand:
                name = found.group(1)
                declared.add(name)
                if specs and re.match(r"^[a-z]", name) and (CAMEL.match(name) or "/lists/" in path or "_" in name):
                    functions.add(snake(name))
    return declared, functions


def of_the_kit(root):
    """The names that files import from libraries of the kit: they stay."""
    names = set()
    for path in files(root, ".antt", ".rt"):
        for items in re.findall(r"use (?!Rattle\.(?!std\b))[\w.]+\.\{([^}]*)\}", read(path)):
            names.update(item.strip().split(" as ")[0] for item in items.split(","))
    return names


def turned(name, functions):
    parts = [snake(p) if CAMEL.match(p) else p for p in name.split("-")]
    # a number, a prime or an empty part at the end stays as it is
    text = parts[0]
    for before, part in zip(parts, parts[1:]):
        text += ("-" if before in functions and part in functions else "_") + part
    return text


def table(root):
    declared, functions = own(root)
    to = {}
    for name in declared - of_the_kit(root):
        if not re.match(r"^[a-z]", name):
            continue
        if "-" not in name and not CAMEL.match(name):
            continue
        if re.match(r"^(invariant|decreases)-", name):
            continue
        new = INSTEAD.get(name) or turned(name, functions)
        if new != name:
            to[name] = new
    # a lemma that would have its function's name
    taken = {new for old, new in to.items() if CAMEL.match(old)}
    for name in to:
        if not CAMEL.match(name) and to[name] in taken:
            to[name] += "_lem"
    return to


def clashes(root, to):
    """New names that are another name already in a file where the old one stands, and old names that become one."""
    said = []
    back = collections.defaultdict(list)
    for old, new in to.items():
        back[new].append(old)
    for new, olds in back.items():
        if len(olds) > 1:
            said.append((new, "made of " + " ".join(sorted(olds)), ""))
    for path in files(root, ".antt", ".rt"):
        text = read(path)
        if path.endswith(".antt"):
            text = re.sub(r"(?m)^\s*--.*$", "", text)
        else:
            text = re.sub(r"//.*", "", text)
        words = set(WORD.findall(lemmas(path, text)))
        for word in sorted(words):
            if word in to and to[word] in words and to[word] != word:
                said.append((to[word], "stands already beside " + word, os.path.relpath(path, root)))
    return said


def lemmas(path, text):
    """The text with the names of LEMMAS, where the file is one of theirs."""
    for name, *where in LEMMAS:
        if path.endswith(tuple(where)):
            text = WORD.sub(lambda m: name + "_lem" if m.group() == name else m.group(), text)
    return text


def turn(text, to):
    return WORD.sub(lambda m: to.get(m.group(), m.group()), text)


def turn_spans(text, to):
    return re.sub(r"`[^`\n]+`", lambda m: turn(m.group(), to), text)


def turn_antt(text, to):
    out = []
    for line in text.split("\n"):
        if re.match(r"^\s*--", line):
            out.append(turn_spans(line, to))
        else:
            out.append(turn(line, to))
    return "\n".join(out)


def turn_rt(text, to):
    camel = {old: new for old, new in to.items() if CAMEL.match(old)}
    out, ghost = [], False
    for line in text.split("\n"):
        if re.match(r"^\s*//", line):
            out.append(turn_spans(line, to))
            continue
        if re.match(r"^\s*(pub )?ghost use ", line):
            ghost = True
        if ghost:
            out.append(turn(line, to))
            ghost = ";" not in line
        else:
            out.append(turn(line, camel))
    return "\n".join(out)


def turn_edit(text, to):
    antt = re.search(r"(?m)^file: .*\.antt\s*$", text)
    camel = {old: new for old, new in to.items() if CAMEL.match(old)}
    out = []
    for line in text.split("\n"):
        if re.match(r"^(old|new): ", line):
            out.append(turn(line, to if antt else camel))
        else:
            out.append(turn_spans(line, to))
    return "\n".join(out)


def main(argv):
    root = os.getcwd()
    to = table(root)
    if "--list" in argv:
        for old in sorted(to):
            print(old + "\t" + to[old])
        for it in clashes(root, to):
            print("together:\t" + "\t".join(it))
        return 0
    pages = [os.path.join(root, "README.md")] + [os.path.join(root, "docs", n) for n in sorted(os.listdir(os.path.join(root, "docs"))) if n.endswith(".md")]
    for path in pages:
        text = read(path)
        with open(path, "w", encoding="utf-8", newline="") as it:
            it.write(turn_spans(text, to))
    for path in files(root, ".antt", ".rt", ".edit"):
        text = read(path)
        new = turn_antt(lemmas(path, text), to) if path.endswith(".antt") else turn_rt(text, to) if path.endswith(".rt") else turn_edit(text, to)
        if new != text:
            with open(path, "w", encoding="utf-8", newline="") as it:
                it.write(new)
    return 0


if __name__ == "__main__":
    raise SystemExit(main(sys.argv[1:]))
