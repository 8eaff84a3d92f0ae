#!/usr/bin/env python3
"""Respells the names of the definitions, laws and models: words in snake case, types in upper camel case.

usage: python3 tools/respell_names.py [--dry]     at the top of the repository, once, after the toolchain's own respelling

A name with a dash that the files of crates/*/specs declare or bind becomes `word_word`, or `WordWord` where it is a type, which is where
its first letter is a capital and it is no list. The same holds of a prime: ′ becomes '. Names that a library declares keep their spelling,
and so do names that Rattle makes. Text of clauses, of files in specs/ and proofs/, and of edits is respelled; code and strings are not.
Prints the names that stand somewhere already in their new spelling, as a module's or a function's; with --dry it does no more.
"""
import os
import re
import sys

TOKEN = r"[^\s(){}\[\],;.:=λ→×⊥\"`/|&<>◌∷«»]*[A-Za-z0-9_'′₀-₉)]-[A-Za-z_0-9][^\s(){}\[\],;.:=λ→×⊥\"`/|&<>◌∷«»]*"
TOKEN_RE = re.compile(TOKEN)
LIBRARY_USE = re.compile(r"use (?:Rattle\.(?:std|core|io|libc|os)|native|borrow|lib|logic|mathlib|Prim|denote|base|prog|specs)(?:\.[\w'-]+)*\.\{([^}]*)\}")
# Capitalised names of lists, not of types.
LISTS = {"A-chars", "A-lengths", "B-chars", "B-lengths"}
# A dash that Rattle writes itself.
MADE = re.compile(r"^(Need|After|InvT|MeasureT|#)-")


def files(root, suffixes):
    for folder, dirs, names in os.walk(os.path.join(root, "crates")):
        dirs[:] = sorted(d for d in dirs if d != "out")
        for n in sorted(names):
            if n.endswith(suffixes):
                yield os.path.join(folder, n)


def read(p):
    with open(p, encoding="utf-8") as f:
        return f.read()


def code_of(text):
    return "\n".join(re.sub(r"--(?![^\s]).*$|--\s.*$", "", l) for l in text.split("\n"))


def new_name(t):
    if t[0].isupper() and t not in LISTS:
        parts = re.split(r"[-_]", t)
        return "".join(p[:1].upper() + p[1:] for p in parts).replace("′", "'")
    r = t.replace("-", "_").replace("′", "'")
    return r.lower() if t in LISTS else r


def library_names(root):
    found = set()
    for p in files(root, (".antt", ".rt")):
        for m in LIBRARY_USE.finditer(read(p)):
            if m.group(1):
                for n in m.group(1).split(","):
                    n = n.strip()
                    found.add(n.split(" as ")[0].strip())
    return found


def own_names(root, library):
    names = set()
    for p in files(root, (".antt",)):
        if "/specs/" not in p and not re.search(r"/proofs/[A-Z]\w*\.antt$", p):
            continue
        for t in TOKEN_RE.findall(code_of(read(p))):
            if t not in library and not MADE.match(t):
                names.add(t)
    return names


def clauses(text):
    """The spans of a .rt file that are read as clauses or imports of names for them."""
    spans = []
    for m in re.finditer(r"^[ \t]*(?:pub )?ghost use [^;]*;", text, re.M):
        spans.append((m.start(), m.end()))
    for m in re.finditer(r"^[ \t]*(?:requires|ensures|ghost|invariant)\b[^{;]*\{", text, re.M):
        if "ghost use" in m.group(0):
            continue
        depth, i = 1, m.end()
        while depth:
            depth += {"{": 1, "}": -1}.get(text[i], 0)
            i += 1
        spans.append((m.end(), i))
    return sorted(spans)


def main():
    root = "."
    dry = "--dry" in sys.argv
    library = library_names(root)
    own = own_names(root, library)
    table = {t: new_name(t) for t in own}
    pattern = TOKEN_RE

    def respell(text):
        return pattern.sub(lambda m: table.get(m.group(0), m.group(0)), text)

    # what would fall together
    plain = set()
    for p in files(root, (".antt",)):
        plain.update(re.findall(r"[^\s(){}\[\],;.:=λ→×⊥\"`/|&<>◌∷«»]+", code_of(read(p))))
    clash = sorted((t, n) for t, n in table.items() if n in plain)
    seen = {}
    for t, n in table.items():
        seen.setdefault(n, []).append(t)
    double = [v for v in seen.values() if len(v) > 1]
    print(len(table), "names;", len(clash), "clash;", len(double), "double")
    for c in clash:
        print("clash:", *c)
    for d in double:
        print("double:", *d)
    if dry:
        return
    for p in files(root, (".antt", ".rt", ".edit")):
        old = read(p)
        if p.endswith(".antt"):
            out = []
            for l in old.split("\n"):
                m = re.search(r"(^|\s)--(\s|$)", l)
                head, tail = (l[: m.start()], l[m.start():]) if m else (l, "")
                tail = re.sub(r"`[^`]*`", lambda k: respell(k.group(0)), tail)
                out.append(respell(head).replace("′", "'") + tail)
            new = "\n".join(out)
        elif p.endswith(".rt"):
            new, at = "", 0
            for a, b in clauses(old):
                new += old[at:a] + respell(old[a:b])
                at = b
            new += old[at:]
            new = re.sub(r"^(\s*//.*)$", lambda m: re.sub(r"`[^`]*`", lambda k: respell(k.group(0)), m.group(1)), new, flags=re.M)
        else:
            new = re.sub(r"^((?:old|new): .*)$", lambda m: respell(m.group(1)), old, flags=re.M)
        if new != old:
            with open(p, "w", encoding="utf-8") as f:
                f.write(new)


main()
