#!/usr/bin/env python3
"""Brings the repository's own definitions and lemmas to today's spelling, after port.py: run once, at the top.

Names of specs/ and of the lemma files of proofs/ that have a capital behind a small letter, or a dash, are put into snake case. A dash stays
where it joins two names of definitions, as in length-drop. A name whose new spelling is taken already keeps its old one, and is printed.
Names of src/, strings, the names that the check makes and what stands in a function's own proof folder under a name of its own stay.
"""
import collections
import glob
import os
import re
import sys

TOKEN = re.compile(r"[^\s(){}\[\],;.«»\"]+")
DEFINED = re.compile(
    r"^\s*(?:(?:abbrev|unfoldable|pub|record|data|mutual)\s+)*([^\s(){}:=]+)\s*(?:\{[^}]*\}\s*)*(?::|\()")
KEEP = {"->", "→"}


def files(kind):
    for p in sorted(glob.glob("crates/*/" + kind, recursive=True)):
        if "/out/" not in p:
            yield p


def lemma_files():
    yield from files("specs/*.antt")
    yield from files("proofs/*.antt")


def defined(path):
    names = set()
    comment = False
    for line in open(path, encoding="utf-8"):
        if line.lstrip().startswith("--") or line.startswith("use ") or line.lstrip().startswith("unfolding"):
            continue
        m = DEFINED.match(line)
        if m:
            names.add(m.group(1))
        for m in re.finditer(r"\bas ([^\s(){},;]+)", line):
            names.add(m.group(1))
    for line in open(path, encoding="utf-8"):
        if line.startswith("use "):
            for m in re.finditer(r"\bas ([^\s(){},;]+)", line):
                names.add(m.group(1))
    return names


def snake(part):
    return re.sub(r"(?<=[a-z0-9])([A-Z])", lambda m: "_" + m.group(1).lower(), part)


def camel(name):
    return bool(re.match(r"^[a-z][\w']*$", name)) and bool(re.search(r"[a-z0-9][A-Z]", name))


def new_name(name, known):
    parts = [snake(p) if re.match(r"^[a-z]", p) else p for p in name.split("-")]
    # Laws on a call, named after it by plain words
    if parts[-1] in ("only", "kinds", "reads", "leaves") and len(parts) > 2:
        return "_".join(parts)
    out = parts[0]
    whole = parts[0]
    for p in parts[1:]:
        joined = "-" if (whole in known and p in known) else "_"
        # a type keeps its capital, and a dash joins it
        if re.match(r"^[A-Z]", whole) or re.match(r"^[A-Z]", p):
            joined = "-"
        out += joined + p
        whole = p if joined == "-" else whole + "_" + p
    return out


def library():
    """The words of the library that a dash may join."""
    words = set()
    for folder in ("core", "std", "std_alloc"):
        for p in glob.glob(f"/opt/rattle/rattle/{folder}/specs/**/*.antt", recursive=True):
            for line in open(p, encoding="utf-8"):
                m = re.match(r"^(?:abbrev |unfoldable )?pub ([a-z_]+)\s", line)
                if m:
                    words.add(m.group(1))
    return words | {"length", "take", "drop", "append", "set", "sets", "get", "add", "sub", "mul", "div", "mod", "zero", "suc"}


def library_imports():
    """Names that come from the library somewhere: they stay."""
    names = set()
    for p in list(files("**/*.antt")) + list(files("src/**/*.rt")):
        for line in open(p, encoding="utf-8"):
            m = re.match(r"^\s*(?:ghost )?use (?:Rattle\.std|borrow|native|mathlib|Prim|lib|logic)[^{]*\.\{(.*)\}", line)
            if m:
                for item in m.group(1).split(","):
                    names.add(item.strip().split(" as ")[0])
    return names


def fields():
    """Fields of records, and constructors."""
    names = set()
    for p in lemma_files():
        for line in open(p, encoding="utf-8"):
            m = re.match(r"^\s+(?:pub )?([^\s(){}:=]+)\s*:", line)
            if m:
                names.add(m.group(1))
    return names


def main():
    own = set()
    for p in lemma_files():
        own |= defined(p)
    everything = set()
    for p in files("**/*.antt"):
        everything |= set(TOKEN.findall(open(p, encoding="utf-8").read()))
    for p in files("src/*.rt"):
        everything |= set(TOKEN.findall(open(p, encoding="utf-8").read()))
    plain = {snake(n) if camel(n) else n for n in own if "-" not in n}
    known = plain | library()
    turned = {}
    for n in sorted(own):
        if re.search(r"[◌′'⟦⟧·]", n) or not re.match(r"^[A-Za-z][\w-]*$", n):
            continue
        if camel(n) or ("-" in n and re.match(r"^[A-Za-z]", n)):
            m = new_name(n, known)
            if m != n:
                turned[n] = m
    given = library_imports()
    for n in list(turned):
        if n in given:
            print(f"kept: {n} (a library has it)")
            del turned[n]
    reserved = set("data record deriving module where use mod pub package open as unfoldable abbrev axiom unfold unfolding ruleset mutual infix elim let in do Type".split())
    used = {part for t in everything for part in t.split(".")} - set(turned)
    # Definitions first, so that a lemma gives way.
    for n, m in sorted(turned.items(), key=lambda pair: ("-" in pair[0], pair[0])):
        if m in used or m in reserved:
            m += "_lem" if m + "_lem" not in used else "_law"
        used.add(m)
        turned[n] = m
        if m.endswith(("_lem", "_law")):
            print(f"taken: {n} -> {m}")
    print(f"turned: {len(turned)} names")
    for n, m in sorted(turned.items()):
        print(f"  {n} -> {m}")
    if "--try" in sys.argv:
        return
    projected = fields()

    def respelled(match):
        parts = match.group(0).split(".")
        path = parts[0] == "Rattle"
        out = [turned.get(parts[0], parts[0])]
        for part in parts[1:]:
            out.append(turned.get(part, part) if path or part in projected else part)
        return ".".join(out)

    paths = list(files("**/*.antt")) + list(files("src/**/*.rt")) + list(files("must-fail/*.edit")) + sorted(glob.glob("tests/wrong/*/*.edit"))
    for p in paths:
        text = open(p, encoding="utf-8").read()
        out = TOKEN.sub(respelled, text)
        if out != text:
            open(p, "w", encoding="utf-8").write(out)


main()
