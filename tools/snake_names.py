#!/usr/bin/env python3
"""Brings the repository's own names in specs/, proofs/ and clauses to snake case: `graphFrom` becomes `graph_from`.

usage: python3 tools/snake_names.py      at the top of the repository, once, after the kit's port.py

A name is turned if an .antt file declares it: a definition, a lemma, a field or a constructor. Types, modules, names of src/, strings and what the
kit's libraries declare keep their spelling. The edits and the pages are turned too. Where a definition would fall
together with a lemma, the lemma's name gets `_lem`.
"""

import collections
import os
import re
import subprocess
import sys

WORD = re.compile(r"(?<![\w'])[a-z][\w']*[A-Z0-9][\w']*(?![\w'])")
HEAD = re.compile(r"^\s*(?:(?:abbrev|unfoldable|private)\s+)?(?:pub\s+)?([^\s(){}:.,;=]+)((?:\s+[^\s(){}:.,;=]+)*)\s*:(?!=)")
# declared by the kit, and only used or joined to here
KIT = {"getD": "get_or"}


def snake(name):
    if name in KIT:
        return KIT[name]
    s = re.sub(r"(?<=[a-z0-9'])([A-Z])", r"_\1", name).lower()
    return re.sub(r"_or(\d+)$", r"_or_\1", s)


def camel(part):
    return re.fullmatch(r"[a-z][a-z0-9']*(?:[A-Z][a-z0-9']*)+", part) is not None


def files(root, endings, below="."):
    out = subprocess.run(["git", "ls-files", "-co", "--exclude-standard", below], cwd=root, capture_output=True, text=True, check=True).stdout
    return [os.path.join(root, f) for f in out.split("\n") if f.endswith(endings) and os.path.exists(os.path.join(root, f))]


def parts(token):
    """A lemma's name joins names by dashes: each is turned by itself."""
    return token.split("-")


def declared(root):
    """Each name that an .antt file declares, and its parts between dashes."""
    names = collections.defaultdict(set)
    for p in files(root, (".antt",), "crates"):
        for line in open(p, encoding="utf-8"):
            line = line.split("--")[0]
            m = HEAD.match(line)
            if m:
                for w in [m[1], *m[2].split()]:
                    names[w].add(os.path.relpath(p, root))
                    for part in parts(w):
                        names[part].add(os.path.relpath(p, root))
    return names


def turn(text, table):
    return WORD.sub(lambda m: table.get(m[0], m[0]), text)


def outside_strings(text, table):
    return "".join(s if k % 2 else turn(s, table) for k, s in enumerate(re.split(r'(b?"(?:[^"\\\n]|\\.)*")', text)))


def main():
    root = subprocess.run(["git", "rev-parse", "--show-toplevel"], capture_output=True, text=True, check=True).stdout.strip()
    names = declared(root)
    table = {n: snake(n) for n in names if camel(n)}
    back = collections.defaultdict(set)
    for n, s in table.items():
        back[s].add(n)
    clash = {s: ns for s, ns in back.items() if len(ns) > 1}
    lemmas = {s: s + "_lem" for s in back if s in names}
    for s, ns in sorted(clash.items()):
        print("fall together:", s, sorted(ns))
    for s, to in sorted(lemmas.items()):
        print("falls together:", s, "->", to, sorted(names[s]))
    if "--list" in sys.argv:
        for n, s in sorted(table.items()):
            print(n, s)
        return 0
    if clash:
        return 1
    lemma = re.compile(r"(?<![\w'.-])(" + "|".join(map(re.escape, sorted(lemmas))) + r")(?![\w'-]|\.[A-Z{])") if lemmas else None
    pages = dict(table)
    known = set(names) | set(table.values())
    changed = 0
    for p in files(root, (".rt", ".antt", ".edit", ".md")):
        with open(p, encoding="utf-8") as f:
            t = f.read()
        if p.endswith((".edit", ".md")):
            for w in set(WORD.findall(t)):
                if camel(w) and snake(w) in known:
                    pages[w] = snake(w)
            new = turn(t, pages)
        elif p.endswith(".rt"):
            new = outside_strings(t, table)
        else:
            new = outside_strings(lemma.sub(lambda m: lemmas[m[0]], t) if lemma else t, table)
        if new != t:
            with open(p, "w", encoding="utf-8") as f:
                f.write(new)
            changed += 1
    print(f"{len(table)} names, {changed} files")
    return 0


if __name__ == "__main__":
    raise SystemExit(main())
