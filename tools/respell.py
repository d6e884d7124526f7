#!/usr/bin/env python3
"""Spells the repository's own names in antt as the library does: words in snake case, a dash between two names.

usage: python3 tools/respell.py      at the top of the repository, once, after port.py

A name that a file of specs/ or proofs/ declares, with a capital inside or with a dash, gets underscores between its words.
A dash stays where it joins the names of two functions (length-put). Names of Rust items, and of goals in a Proof.antt, stay.
Where names would fall together, the definition has the name, and the lemma the ending _lem; both are printed.
"""
import collections
import os
import re
import subprocess

STD = set("length take drop get_or map append reverse set replicate list_index slice_index choose put sum min max concat filter".split())
OLD = {"getD": "get_or", "lU": "lU", "lS": "lS", "lH": "lH"}
MARK = r"(?:(?:abbrev|unfoldable|pub|pattern|data|record|open)\s+)*"
DECL = re.compile(r"^([ \t]*)(" + MARK + r")([^\s:(){},.;=]+)((?:\s+[(\{][^:]*:[^\n]*?[)\}])*)\s*:(?![=:])([^\n]*)", re.M)
TOKEN = re.compile(r"[^\s(){}\[\];,.:λ\"`⟦⟧]+")


def snake(name):
    if name in OLD:
        return OLD[name]
    name = re.sub(r"(?<=[a-z0-9])([A-Z]+)(?=[a-z]|$|[-_])", lambda m: "_" + m.group(1).lower(), name)
    return re.sub(r"(?<=[a-z0-9])([A-Z])", lambda m: "_" + m.group(1).lower(), name)


def bare(text):
    return re.sub(r"--.*", "", text)


def files():
    names = subprocess.check_output(["git", "ls-files", "--cached", "--others", "--exclude-standard", "crates"], text=True).split("\n")
    return [f for f in names if f.endswith((".antt", ".rt", ".edit")) and os.path.exists(f)]


def spelled(name, known):
    """The name with underscores, and with one dash where that joins two functions."""
    parts = ["get_or" if p == "getD" else snake(p) for p in name.split("-")]
    for i in range(1, len(parts)):
        left, right = "_".join(parts[:i]), "_".join(parts[i:])
        if left in known and right in known:
            return left + "-" + right
    return "_".join(parts)


def main():
    texts = {f: open(f, encoding="utf-8").read() for f in files()}
    declared, defined, fields = collections.defaultdict(set), set(), set()
    local = collections.defaultdict(set)
    rust = collections.defaultdict(set)
    for f, t in texts.items():
        crate = f.split("/")[1]
        if f.endswith(".rt"):
            rust[crate] |= set(re.findall(r"\bfn (\w+)", t))
        if not f.endswith(".antt"):
            continue
        for m in DECL.finditer(bare(t)):
            indent, name, type_ = m.group(1), m.group(3), m.group(5)
            if f.endswith("/Proof.antt"):
                if not re.match(r"\s*tie\.Need|\s*tie\.(invariant|decreases)|.*statement", type_):
                    local[f].add(name)
                continue
            declared[name].add(f)
            if indent:
                fields.add(name)
            if "/specs/" in f:
                defined.add(name)
    known = STD | {snake(n) for n in defined if "-" not in n and n[0].islower()} | {"get_or"}
    every = set(declared) | {n for s in local.values() for n in s}
    new, used = {}, {}
    for n in sorted(declared, key=lambda n: (n not in defined, n)):
        if not (n[0].islower() and (re.search("[a-z0-9][A-Z]", n) or "-" in n)):
            continue
        to = spelled(n, known)
        crates = {f.split("/")[1] for f in declared[n]}
        if to == n:
            continue
        if n in defined and to in every and to not in defined and to not in used:
            print(f"gives way: {to} to {n}")
            new[to] = to + "_lem"
            used[to + "_lem"] = to
        elif to in every or to in used or n not in defined and any(to in rust[c] for c in crates):
            print(f"falls together: {n} with {to}{' and ' + used[to] if to in used else ''}")
            to += "_of" if n in defined else "_lem"
        new[n] = to
        used[to] = n
    for f, t in texts.items():
        table = dict(new)
        if f.endswith("/Proof.antt"):
            for n in local[f]:
                if n[0].islower() and (re.search("[a-z0-9][A-Z]", n) or "-" in n):
                    table[n] = spelled(n, known)
        lines = []
        for line in t.split("\n"):
            in_use = line.lstrip().startswith(("use ", "ghost use ", "pub use"))

            def one(m, line=line, in_use=in_use):
                w = m.group(0)
                if w not in table:
                    return w
                if m.start() and line[m.start() - 1] == "." and not in_use and not f.endswith(".rt"):
                    if w not in fields and "-" in w:
                        return w
                return table[w]

            if f.endswith(".rt") and line.lstrip().startswith("//"):
                lines.append(line)
                continue
            lines.append(TOKEN.sub(one, line))
        out = "\n".join(lines)
        if out != t:
            open(f, "w", encoding="utf-8").write(out)
    print(f"{len(new)} names")


if __name__ == "__main__":
    main()
