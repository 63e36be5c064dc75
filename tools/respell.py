#!/usr/bin/env python3
"""Spells the crates' own definitions, lemmas, fields and variables as today's library does: words in snake case.

usage: tools/respell.py        at the top of the repository, once, after the port's scripts

A dash stays only in a lemma's name that joins two names of definitions, as length-head does. Names that are imported
from the library keep their spelling, and so do the names that Rattle makes of the code (in a function's Answers and
Invariants), functions of src/, strings, inputs and outputs. A definition that states a fact is spelled as a type.
Names that would fall together are printed, and then nothing is written.
"""
import os
import re
import sys

TOKEN = re.compile(r"(?<![\w'.«-])[A-Za-zμ_][\w']*(?:-[\w'≡]+)+(?![\w-])|(?<=\.)[A-Za-z_][\w']*(?:-[\w'≡]+)+(?![\w-])")
HEAD = re.compile(r"^[ ]*(?:(?:pub|abbrev|unfoldable|record|data)\s+)*([^\s(){}:]+)\s*:(?!:)", re.M)
USE = re.compile(r"^[ \t]*(?:ghost )?(?:pub )?use ([^\s;{]+?)(?:\.\{([^}]*)\})?(?: as (\S+?))?;?[ \t]*$", re.M)
LIBRARY = ("Rattle.std", "borrow", "native", "mathlib", "lib", "Prim", "denote", "mir", "logic")
# words of comments that are also names
PROSE = {"so-far"}
FACTS = {"crates/zigzag": {"sound": "IsSound"}}
# words of the library that a lemma's name may join to a word of ours
WORDS = set("length append take drop set map replicate cond suc all slice_get slice_set slice_index eq_nat bytes mem get_or".split())


def files(root):
    for folder, dirs, names in os.walk(os.path.join(root, "crates")):
        dirs[:] = sorted(d for d in dirs if d != "out")
        for n in sorted(names):
            if n.endswith((".antt", ".rt")):
                yield os.path.join(folder, n)


def of_function(path):
    return bool(re.search(r"/proofs/(?:[^/]+/)+[^/]+\.antt$", path))


def imported(text):
    """The names that the text imports: of the library, and of the repository."""
    lib, own = set(), set()
    for m in USE.finditer(text):
        to = lib if m[1].split(".")[0] in LIBRARY or m[1].startswith("Rattle.std.") else own
        for part in (m[2] or "").split(","):
            part = part.strip()
            if " as " in part:
                a, b = part.split(" as ")
                to.add(a.strip())
                own.add(b.strip()) if b.strip() not in to else None
            elif part:
                to.add(part)
        if m[3]:
            own.add(m[3])
    return lib, own


def snake(name):
    return name.replace("-", "_")


def main():
    root = "."
    texts = {p: open(p, encoding="utf-8").read() for p in files(root)}
    declared, lemmas = set(), set()
    for p, t in texts.items():
        if p.endswith(".antt") and not of_function(p):
            for m in HEAD.finditer(t):
                declared.add(m[1])
                if "/proofs/" in p or p.endswith(("Laws.antt", "Bytes.antt")) and "abbrev" not in m[0] and "unfoldable" not in m[0]:
                    lemmas.add(m[1])
    definitions = {snake(d) for d in declared - lemmas} | WORDS

    def spelled(name):
        parts = name.split("-")
        if name in lemmas:
            # the fewest pieces that are all names of definitions
            best = None

            def cut(i, pieces):
                nonlocal best
                if i == len(parts):
                    if len(pieces) > 1 and (best is None or len(pieces) < len(best)):
                        best = list(pieces)
                    return
                for j in range(i + 1, len(parts) + 1):
                    piece = "_".join(parts[i:j])
                    if piece in definitions:
                        cut(j, pieces + [piece])

            cut(0, [])
            if best:
                return "-".join(best)
        return snake(name)

    new, clash, renamed = {}, [], {}
    taken = {d for d in declared if "-" not in d}
    for p, t in texts.items():
        lib, own = imported(t)
        inside = of_function(p)

        def turn(m):
            name = m[0]
            behind_dot = t[m.start() - 1 : m.start()] == "."
            in_comment = "--" in t[t.rfind("\n", 0, m.start()) + 1 : m.start()]
            if name not in declared and (in_comment or name[0].isupper()):
                return name
            if in_comment and name in PROSE:
                return name
            if behind_dot:
                if name not in declared:
                    return name
            elif name in lib:
                return name
            elif inside and name not in own:
                return name
            elif p.endswith(".rt") and name not in declared:
                return name
            to = spelled(name)
            if to != name:
                renamed.setdefault(to, set()).add(name)
            return to

        if p.endswith(".rt"):
            pieces = re.split(r'("(?:[^"\\\n]|\\.)*")', t)
            out = []
            for piece in pieces:
                if piece.startswith('"'):
                    out.append(piece)
                    continue
                whole, t_old = t, piece
                t = piece
                out.append(TOKEN.sub(turn, piece))
                t = whole
            text = "".join(out)
        else:
            text = TOKEN.sub(turn, t)
        for crate, words in FACTS.items():
            if p.startswith(os.path.join(root, crate) + "/"):
                for a, b in words.items():
                    if p.endswith(".antt"):
                        text = re.sub(rf"(?<![\w'.«-]){a}(?![\w'-])", b, text)
                    else:
                        text = re.sub(rf"^(ghost use .*[{{ ]){a} as {a}-\w+([,}}])", rf"\1{b}\2", text, flags=re.M)
                        text = re.sub(rf"^(\s*ghost {a} = \{{ ){a}-\w+( \}};)", rf"\1{b}\2", text, flags=re.M)
        if text != texts[p]:
            new[p] = text
    for to, names in sorted(renamed.items()):
        if len(names) > 1 or to in taken and to not in names:
            clash.append(f"{to}: {', '.join(sorted(names))}{' and ' + to if to in taken else ''}")
    if clash and "--anyway" not in sys.argv:
        print("fall together:\n  " + "\n  ".join(clash))
        return 1
    for p, text in new.items():
        with open(p, "w", encoding="utf-8") as f:
            f.write(text)
    print(f"{len(renamed)} names, {len(new)} files")
    for to, names in sorted(renamed.items()):
        print("  " + ", ".join(sorted(names)) + " -> " + to)
    return 0


if __name__ == "__main__":
    raise SystemExit(main())
