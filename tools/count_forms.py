#!/usr/bin/env python3
"""Counts the places of crates/*/src that docs/DESIGN-PASS.md speaks of, point by point.

usage: python3 tools/count_forms.py [--list]     at the top of the repository; with --list each place is printed

It reads the sources as text: a function is its signature, with what stands in the comment above it, and its body.
"""
import glob
import re
import sys

LIST = "--list" in sys.argv[1:]
FN = re.compile(
    r"((?:^ *//[^\n]*\n)*)^( *)(?:#\[[^\n]*\]\n *)?((?:pub(?:\(crate\))? )?(?:extern \"C\" )?)fn (\w+)(?:<[^>(]*>)?\((.*?)\)( -> [^{\n]*?)?(?=\n *(?:requires|ensures|ghost)|\s*\{)",
    re.M | re.S,
)


def sources():
    for path in sorted(glob.glob("crates/*/src/**/*.rt", recursive=True)):
        yield path, open(path, encoding="utf-8").read()


def functions():
    for path, text in sources():
        for m in FN.finditer(text):
            comment, _, _, name, params, result = m.groups()
            yield path, name, comment, " ".join(params.split()), (result or "").replace("->", "").strip()


def lines(pattern, skip=()):
    for path, text in sources():
        if any(s in path for s in skip):
            continue
        for n, line in enumerate(text.split("\n"), 1):
            if re.search(pattern, line) and not line.lstrip().startswith("//"):
                yield f"{path}:{n}: {line.strip()}"


def names(params):
    return {p.split(":")[0].strip().removeprefix("mut ") for p in params.split(",") if ":" in p}


def show(point, what, places):
    places = list(places)
    print(f"{point:>3}  {len(places):4}  {what}")
    if LIST:
        for place in places:
            print(f"           {place}")


FACE = ("crates/mopekihua/", "crates/spec/")
NONE = re.compile(r"(, or 0\b|\b0 where there is none|Number 0 means none|16 for every byte that is none|or 65,536 where|or the number of (codes|lines) if|, or the number of codes)")

show("1", "refusals as numbers: a `refusal: u32`, or a result `u32`", lines(r"refusal: u32|-> u32", FACE))
show("1", "functions that answer a refusal with a value beside it", (
    f"{p}: {n}" for p, n, c, a, r in functions() if re.match(r"(First|Tally)?Answer$", r) and not p.startswith(FACE)))
show("1", "tests of such a number", lines(r"if (refusal|early|opened\.refusal) [!=]= 0", FACE))
show("1", "functions where a number stands for none", (
    f"{p}: {n}" for p, n, c, a, r in functions() if NONE.search(" ".join(c.split("//"))) and r in ("usize", "u32", "u8", "Found")))
show("1", "structs with a flag beside the value that it speaks of", lines(r"^ +(pub )?(good|is_word): bool,"))
show("2", "functions of a family that differ in a constant", (
    f"{p}: {n}" for p, n, c, a, r in functions() if re.search(r"_(few|some|many)_lines$|_in_(short|middle|long)$", n)))
show("2", "binary searches, each for one kind of number", (
    f"{p}: {n}" for p, n, c, a, r in functions() if re.search(r"lower_bound", n)))
show("3", "loops that are no `for`", lines(r"^ *(while|loop)\b"))
show("3", "loops that are a `for`", lines(r"^ *for\b.* in "))
show("4", "functions that the library has", (
    f"{p}: {n}" for p, n, c, a, r in functions()
    if n in ("min", "max", "saturating_sub", "fill", "write_list", "distance", "excess", "has_char", "has_head", "put_bytes", "equal_fours", "comes_before")))
show("4", "structs of plain numbers that are not Copy", lines(r"^#\[derive\(Drop\)\]$", FACE))
show("5", "functions that take a dictionary apart (chars and lengths, or word_starts)", (
    f"{p}: {n}" for p, n, c, a, r in functions() if "chars" in names(a) and names(a) & {"lengths", "word_starts"} and not p.startswith(FACE)))
show("5", "functions of eight parameters or more", (
    f"{p}: {n}" for p, n, c, a, r in functions() if a.count(":") >= 8))
show("6", "binary searches by hand", lines(r"let (half|middle) = .*/ 2;"))
show("7", "flags that choose a step", (
    f"{p}: {n}" for p, n, c, a, r in functions() if names(a) & {"as_gaps", "restore", "whole"}))
proofs = [open(f, encoding="utf-8").read() for f in glob.glob("crates/*/proofs/**/*.antt", recursive=True)]
print(f"  8  {sum(t.count(chr(10)) for t in proofs):4}  lines of proofs of functions, in {len(proofs)} files")
