#!/usr/bin/env python3
"""Brings the repository's own definitions and lemmas to the spelling of the installed Rattle.

usage: python3 tools/respell.py [FOLDER]      FOLDER: a checkout (else this one) in which the kit's port.py has just run

Words are in snake case: `queueOf` becomes `queue_of`, the definition `one-if` becomes `one_if`. In a lemma's name a dash joins two names
and nothing else: `get_or-freed` stays, `no-cpu` becomes `no_cpu`. Types, modules, facts and constants keep their capitals; names that
Rattle makes in proofs/F/ and the functions of src/ keep their spelling, and so do strings, inputs and outputs.
Read are the .antt and .rt files of crates/, and the must-fail edits. It can be run again: what is turned stays as it is.
"""

import os
import re
import sys

WORD = re.compile(r"(?<![\w'])[A-Za-z]\w*'*(?:-\w+'*)*")
HUMP = re.compile(r"[a-z0-9][A-Z]")
DECLARED = re.compile(r"^\s*(?:(?:abbrev|unfoldable|pub|private|opaque)\s+)*((?:[A-Za-z][\w'-]*\s+)*[A-Za-z][\w'-]*)\s+:(?=\s|$)", re.M)
SOURCE = re.compile(r"\bfn (\w+)|^\s*(?:pub )?(\w+): ", re.M)

# Words of the library that own lemmas are named after.
LIBRARY = set("append cons count drop get_or length map max min mod mul nil replicate set snoc sub sum take".split())
# Named after a function of the library that has another name now, or else fallen together with another name.
BY_HAND = {"getD": "get_or", "getElem": "get_elem", "chosenBy": "chosen_of"}
# Steps of generated proofs that are spelled as a lemma is, where they stand after a dot.
STEPS = set("cpus-fit lowest-free marks-sound parked-fits queue-fits queues-fit".split())


def snake(part):
    return BY_HAND.get(part) or (re.sub(r"([a-z0-9])([A-Z])", lambda m: m.group(1) + "_" + m.group(2).lower(), part) if part[0].islower() else part)


def files(root, *ends):
    for folder, dirs, names in os.walk(os.path.join(root, "crates")):
        dirs[:] = sorted(d for d in dirs if d != "out")
        for name in sorted(names):
            if name.endswith(ends):
                yield os.path.join(folder, name)


def read(path):
    with open(path, encoding="utf-8") as f:
        return f.read()


# Text and strings take turns.
def pieces(text):
    return re.split(r'("(?:[^"\\\n]|\\.)*")', text)


def depth(root, path):
    return len(os.path.relpath(path, os.path.join(root, "crates")).split(os.sep))


def declared(text):
    for m in DECLARED.finditer(text):
        yield from m.group(1).split()


def tables(root):
    """The names in camel case that stand in .antt files, and the declared names with a dash, each with its new spelling."""
    humps, dashed, names, taken = set(), set(), set(LIBRARY), set()
    for path in files(root, ".antt"):
        text = read(path)
        for piece in pieces(text)[::2]:
            for m in WORD.finditer(piece):
                taken.add(m.group(0))
                humps.update(p for p in m.group(0).split("-") if p[0].islower() and HUMP.search(p))
        if depth(root, path) == 3:
            own = set(declared(text))
            dashed.update(w for w in own if "-" in w)
            if os.sep + "specs" + os.sep in path:
                names.update(snake(w) for w in own)
    for path in files(root, ".rt"):
        for m in SOURCE.finditer(read(path)):
            names.add(m.group(1) or m.group(2))
    for path in files(root, ".antt"):
        if depth(root, path) == 3 and os.sep + "specs" + os.sep in path:
            for w in declared(read(path)):
                if "-" in w:
                    names.add(w.replace("-", "_"))
    turned = {}
    for w in sorted(dashed):
        parts = [snake(p) for p in w.split("-")]
        new = chunk = parts[0]
        for b in parts[1:]:
            join = "-" if chunk in names and b in names else "_"
            chunk = b if join == "-" else chunk + join + b
            new += join + b
        if new != w:
            turned[w] = new
    for path in files(root, ".antt"):  # a definition has no dash at all
        if depth(root, path) == 3 and os.sep + "specs" + os.sep in path:
            for w in declared(read(path)):
                if "-" in w:
                    turned[w] = "_".join(snake(p) for p in w.split("-"))
    return {p: snake(p) for p in humps}, turned, taken


def respelled(root):
    humps, turned, taken = tables(root)
    both = {}
    for w, new in list(humps.items()) + list(turned.items()):
        both.setdefault(new, set()).add(w)
    for new, olds in sorted(both.items()):
        if len(olds) > 1 or new in taken:
            for w in olds:
                if w in turned and (len(olds) > 1 or new in taken):
                    print(f"look: {w} keeps its dash, since {new} stands already")
                    del turned[w]
            if new in taken and olds & set(humps):
                print(f"look: {', '.join(sorted(olds))} becomes {new}, which stands already")

    def word(m):
        w = m.group(0)
        if w in turned and not (w in STEPS and m.string[m.start() - 1 : m.start()] == "."):
            return turned[w]
        return "-".join(humps.get(p, p) for p in w.split("-"))

    changed = 0
    for path in files(root, ".antt", ".rt", ".edit"):
        old = read(path)
        ps = pieces(old)
        for i in range(0, len(ps), 2):
            ps[i] = WORD.sub(word, ps[i])
        new = "".join(ps)
        if new != old:
            changed += 1
            with open(path, "w", encoding="utf-8") as f:
                f.write(new)
    print(f"respell: {len(humps)} names in camel case, {len(turned)} with dashes, {changed} files")
    return changed


def main():
    root = sys.argv[1] if len(sys.argv) > 1 else os.path.join(os.path.dirname(os.path.abspath(__file__)), "..")
    while respelled(root):  # two names can be joined by what another turn made a name
        pass


main()
