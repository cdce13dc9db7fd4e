#!/usr/bin/env python3
"""Brings the repository's own definitions and lemmas to snake case, as today's Rattle spells them.

usage: python3 tools/snake_names.py          at the repository's root, once, right after the toolchain's port.py
       python3 tools/snake_names.py --dry    says which names would fall together, and writes nothing

A name is the repository's own where a file of specs/ or proofs/ declares it. It is turned in that file and wherever a file
imports it from there; a name that comes from the toolchain's library keeps its spelling, and so do the names of goals and
steps, which the toolchain makes. The script ends with status 1 where two names of one file would fall together.
"""
import os
import re
import sys

TOKEN = re.compile(r'[^\s(){}\[\],;."@`]+')
DECL = re.compile(r'^\s*(?:(?:pattern|unfoldable|abbrev|pub|axiom)\s+)*([^\s(){}\[\],;."@:]+)\s*(?:\{[^}]*\}\s*)?:(?:\s|$)')
USE = re.compile(r'^(?:ghost )?use\s+([^\s{;]+?)(?:\.\{([^}]*)\}|\s+as\s+(\S+?))?;?\s*$')
# Types, which are in camel case.
TYPES = {"At-place": "AtPlace", "So-far": "SoFar", "Unit-of": "UnitOf"}
# The definitions, as they will be spelled: a lemma that would have the name of one ends in `_lem`.
DEFINED = set()


def renamed(name, path):
    new = snake(name)
    if "/proofs/" in path and new in DEFINED and not re.search(r"[a-z][A-Z]", name) and re.search(r"[-_]", name):
        return new + "_lem"
    return new


def snake(name):
    """floorMod-lt becomes floor_mod_lt; a name of a type or a module, one capital letter, or a symbol stays."""
    if not re.match(r"[a-z]", name) or not re.search(r"[a-z0-9][A-Z]|[\w']-\w", name):
        return name
    name = re.sub(r"(?<=[a-z0-9])([A-Z])", lambda m: "_" + m.group(1).lower(), name)
    return re.sub(r"(?<=[\w'])-(?=\w)", "_", name)


def own_files(root):
    for folder, dirs, files in os.walk(os.path.join(root, "crates")):
        dirs[:] = sorted(d for d in dirs if d not in ("out", "must-fail"))
        for f in sorted(files):
            if f.endswith((".antt", ".rt")):
                yield os.path.join(folder, f)


def module_of(path, root):
    """crates/whole/proofs/Floor.antt is Rattle.whole.proofs.Floor."""
    parts = os.path.relpath(path, os.path.join(root, "crates")).split(os.sep)
    return "Rattle." + ".".join(parts)[: -len(".antt")]


def code_lines(text):
    """The lines of a text with an import that goes over several lines as one."""
    return re.sub(r"\{([^{}]*)\}", lambda m: "{" + re.sub(r"\s+", " ", m.group(1)) + "}", text).split("\n")


def declared(text):
    """The names that a file declares, and among them the fields of its records and the goals that it answers."""
    names, fields, goals, depth = set(), set(), set(), None
    for line in text.split("\n"):
        if line.strip().startswith("--"):
            continue
        m = DECL.match(line)
        indent = len(line) - len(line.lstrip())
        if re.match(r"^\s*(?:pub\s+)?record\s", line):
            depth = indent
            continue
        if depth is not None and line.strip() and indent <= depth:
            depth = None
        if m and not line.lstrip().startswith("module"):
            if depth is not None:
                fields.add(m.group(1))
            elif re.search(r":\s*(?:tie|goal)\.(?!Start|Then|Else|After|In|Loop)", line):
                goals.add(m.group(1))
            else:
                names.add(m.group(1))
    return names, fields, goals


def scope(path, text, table, fields):
    """What each token of a file becomes, and each token that follows the alias of an own module."""
    turned, members = {}, {}
    names, _, goals = declared(text)
    for n in names:
        turned[n] = renamed(n, path)
    for line in code_lines(text):
        m = USE.match(line)
        if not m:
            continue
        module, items, alias = m.groups()
        if items is not None:
            for item in items.split(","):
                words = item.split()
                if not words or not module.startswith("Rattle."):
                    continue
                known = words[0] in table.get(module, ())
                if known:
                    turned[words[0]] = renamed(words[0], module.replace(".", "/"))
                if len(words) == 3 and words[1] == "as":
                    turned[words[2]] = snake(words[2])
        elif alias:
            turned[alias.rstrip(";")] = snake(alias.rstrip(";"))
            if module in table:
                members[alias.rstrip(";")] = {n: renamed(n, module.replace(".", "/")) for n in table[module]}
    for g in goals:
        turned.pop(g, None)
    return turned, members


def turn(path, text, table, fields):
    turned, members = scope(path, text, table, fields)
    seen = {}
    out, pos = [], 0
    spans = []
    for line in re.finditer(r"[^\n]*\n?", text):
        if not line.group():
            continue
        s = line.group()
        cut = re.search(r'(?:^|\s)--(?:\s|$)|^\s*//', s)
        code = len(s) if not cut else cut.start()
        last = None
        for t in TOKEN.finditer(s):
            word, new = t.group(), None
            dot = t.start() > 0 and s[t.start() - 1] == "."
            if word in TYPES:
                new = TYPES[word]
            elif t.start() >= code:
                quoted = t.start() > 0 and s[t.start() - 1] == "`" and t.end() < len(s) and s[t.end()] == "`"
                if quoted and (word in turned or word in table["all"]):
                    new = snake(word)
            elif dot:
                if last in members and word in members[last]:
                    new = members[last][word]
                elif word in fields:
                    new = snake(word)
            elif word in turned:
                new = turned[word]
            elif word in fields and re.match(r"\s*[:=](?:\s|$)", s[t.end():]):
                new = snake(word)
            if t.start() < code and not dot:
                seen.setdefault(new or word, set()).add(word)
            last = word
            if new and new != word:
                spans.append((line.start() + t.start(), line.start() + t.end(), new))
    for a, b, new in spans:
        out.append(text[pos:a])
        out.append(new)
        pos = b
    out.append(text[pos:])
    clashes = {n: w for n, w in seen.items() if len(w) > 1}
    return "".join(out), clashes


def main():
    root = os.getcwd()
    texts = {p: open(p, encoding="utf-8").read() for p in own_files(root)}
    table, fields = {"all": set()}, set()
    for p, t in texts.items():
        if p.endswith(".antt"):
            names, fs, goals = declared(t)
            table[module_of(p, root)] = names
            DEFINED.update(snake(n) for n in names if "/specs/" in p or re.search(r"[a-z][A-Z]", n))
            if not re.search(r"/proofs/.*/(?:Proof|Answers|Invariants)\.antt$", p):
                table["all"] |= names | fs
            fields |= {f for f in fs if snake(f) != f}
    bad = 0
    for p, t in texts.items():
        new, clashes = turn(p, t, table, fields)
        for n, w in sorted(clashes.items()):
            print(f"{os.path.relpath(p, root)}: {n} would stand for {', '.join(sorted(w))}")
            bad = 1
        if new != t and "--dry" not in sys.argv:
            with open(p, "w", encoding="utf-8") as f:
                f.write(new)
    return bad


if __name__ == "__main__":
    sys.exit(main())
