#!/usr/bin/env python3
"""Brings the names of this repository's own definitions and lemmas to today's spelling: words in snake case.

usage: tools/respell.py        at the top of the repository, once, after the kit's script and before any edit by hand

A name that specs/ or proofs/*.antt declares and that begins small is written in snake case: a dash or a capital inside becomes an underscore. A lemma that would have its
definition's name gets _lem. A definition may have the name of the function of src/ that computes it. Types, modules, functions of src/, exported names, strings and the
goals that Rattle names stay. It stops before it writes where two names would fall together.
"""

import os
import re
import sys

WORD = re.compile(r'"(?:[^"\\]|\\.)*"|[^\s(){}\[\],;.λ"⟨⟩@]+')
DECLARED = re.compile(r"^\s*(?:(?:abbrev|unfoldable|pub|mutual) )*([^\s:(){}\"]+) +:(?: |$)", re.M)
IMPORTED = re.compile(r"^\s*(?:ghost |pub )*use ([^\s{};]+)\.\{([^}]*)\}", re.M)


def files(ending):
    for folder, dirs, names in os.walk("crates"):
        dirs[:] = sorted(d for d in dirs if d != "out")
        for n in sorted(names):
            if n.endswith(ending):
                yield os.path.join(folder, n)


def read(path):
    with open(path, encoding="utf-8") as f:
        return f.read()


def of_function(path):
    """Is it a file of one function's proof, where Rattle names the goals?"""
    return re.search(r"/proofs/[^/]+/[^/]+\.antt$", path) is not None


def snake(name):
    name = re.sub(r"(?<=[a-z0-9])([A-Z])", lambda m: "_" + m.group(1).lower(), name)
    return name.replace("-", "_")


def imports(text):
    """The names that a file takes, each with the module it comes from."""
    for m in IMPORTED.finditer(text):
        for item in m.group(2).split(","):
            words = item.split()
            if words:
                yield words[0], words[-1], m.group(1)


def own(module, crates):
    parts = module.split(".")
    return parts[0] == "Rattle" and len(parts) > 1 and parts[1] in crates


def plan(crates):
    declared, foreign = set(), set()
    for p in files(".antt"):
        t = read(p)
        if not of_function(p):
            declared.update(DECLARED.findall(t))
        for name, as_name, module in imports(t):
            if not own(module, crates):
                foreign.update((name, as_name))
    for p in files(".rt"):
        for name, as_name, module in imports(read(p)):
            if not own(module, crates):
                foreign.update((name, as_name))
    turned = {}
    for n in sorted(declared):
        if n in foreign or not re.match(r"[a-zé]", n) or "." in n:
            continue
        if snake(n) != n:
            turned[n] = snake(n)
    # a lemma that would have its definition's name gets _lem
    plain = {snake(n) for n in declared if "-" not in n}
    return {o: n + "_lem" if "-" in o and n in plain else n for o, n in turned.items()}


def main():
    crates = set(os.listdir("crates"))
    turned = plan(crates)
    changes, clash = {}, []
    for p in list(files(".antt")) + list(files(".rt")):
        t = read(p)
        names = turned
        if of_function(p):
            taken = {n for n, _, m in imports(t) if own(m, crates)}
            names = {o: n for o, n in turned.items() if o in taken or re.search(r"[a-z][A-Z]", o)}
        # a field behind a dot is no name of the file
        words = {m.group(0) for m in WORD.finditer(t) if m.group(0)[0] != '"' and t[m.start() - 1] != "."}
        met = {}
        for o, n in names.items():
            if o in words:
                if n in words and not (of_function(p) or p.endswith(".rt")):
                    clash.append(f"{p}: {o} and {n}")
                met.setdefault(n, []).append(o)
        clash += [f"{p}: {' and '.join(os_)} are both {n}" for n, os_ in met.items() if len(os_) > 1]

        def one(m):
            return names.get(m.group(0), m.group(0))

        new = "\n".join(WORD.sub(one, line) for line in t.split("\n"))
        if new != t:
            changes[p] = new
    if clash:
        print("\n".join(clash))
        print(f"respell: {len(clash)} names would fall together; nothing was written")
        return 1
    for p, t in changes.items():
        with open(p, "w", encoding="utf-8") as f:
            f.write(t)
    print(f"respell: {len(turned)} names, {len(changes)} files")
    return 0


if __name__ == "__main__":
    sys.exit(main())
