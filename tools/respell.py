#!/usr/bin/env python3
"""Brings the repository's own definitions and lemmas to today's spelling, once, after port.py: words in snake case, a dash only
between two names of definitions, `_lem` on a lemma that would fall together with a definition.

usage: python3 tools/respell.py        at the top of the repository; rewrites crates/*/{src,specs,proofs,must-fail} and docs/ in place

Names of Rust functions, fields and variants, and names that the check makes, are left as they are.
"""
import collections
import os
import re

TOKEN = re.compile(r"(?:\\?[^\W]|[-'◌≡])+|.", re.S)
WORD = re.compile(r"[^\s(){}.,;\"\[\]`|:]+")
DECL = re.compile(r"^\s*(?:abbrev |unfoldable |pub )*([^\s(){}]+)((?: [^\s(){}]+)*)(?: \{[^}]*\})* :(?: |$)")
LIBRARY = set("length map append take drop zip min max cond true false none some suc zero eqb leb ltb not and or fst snd set get_or "
              "replicate pow reverse flat has any all".split())


def files():
    for folder, dirs, names in os.walk("crates"):
        dirs[:] = sorted(d for d in dirs if d != "out")
        for n in sorted(names):
            if n.endswith((".antt", ".rt", ".edit")):
                yield os.path.join(folder, n)


def law(path):
    parts = path.split(os.sep)
    return path.endswith(".antt") and len(parts) == 4 and parts[2] in ("specs", "proofs")


def snake(n):
    return re.sub(r"(?<=[a-z0-9])([A-Z])", lambda m: "_" + m.group(1).lower(), n)


def declared():
    """The names that the files of specs/ and of laws declare; and which of them are fields of records, and which are definitions of specs/."""
    found, fields, specs = collections.OrderedDict(), set(), set()
    for p in files():
        if not law(p):
            continue
        with open(p, encoding="utf-8") as f:
            lines = f.read().split("\n")
        inside = None
        for line in lines:
            if line.strip().startswith("--"):
                continue
            depth = len(line) - len(line.lstrip())
            if inside is not None and line.strip() and depth <= inside:
                inside = None
            m = DECL.match(line)
            if m:
                for n in [m.group(1)] + m.group(2).split():
                    found.setdefault(n, p)
                    if inside is not None:
                        fields.add(n)
                    if "/specs/" in p:
                        specs.add(n)
            if re.match(r"\s*(pub )?(record|data) ", line):
                inside = depth
    return found, fields, specs


def plan(found, specs):
    old = [n for n in found if n[0].islower()]
    kept = set(n for n in old if snake(n) == n and "-" not in n)
    camel = {n: snake(n) for n in old if "-" not in n and snake(n) != n}
    taken = set(camel.values())
    names = kept | set(camel) | LIBRARY
    to = dict(camel)
    for n in kept:
        if n in taken and n not in specs:
            to[n] = n + "_lem"
    for n in old:
        if "-" not in n:
            continue
        parts = n.split("-")
        flat = "_".join(snake(p) for p in parts)
        if flat in taken or flat in kept:
            to[n] = flat + "_lem"
            continue
        if n in specs or re.search(r"[0-9]", n):
            to[n] = flat
            continue
        text = snake(parts[0])
        for a, b in zip(parts, parts[1:]):
            text += ("-" if a in names and b in names else "_") + snake(b)
        to[n] = text
    to = {a: b for a, b in to.items() if a != b}
    final = collections.defaultdict(list)
    for n in old:
        final[to.get(n, n)].append(n)
    for b, a in final.items():
        if len(a) > 1:
            print("falls together:", b, a)
    return to


def turn(text, to, fields, rust):
    aliases = set(re.findall(r"^\s*(?:ghost )?use [^\n{]* as ([-\w]+)", text, re.M)) - {"tie", "goal"}
    to = {**to, **{a: a.replace("-", "_") for a in aliases if "-" in a}}
    out, last, chain = [], 0, None
    for m in WORD.finditer(text):
        w, at = m.group(0), m.start()
        before = text[at - 1] if at else " "
        after = text[m.end()] if m.end() < len(text) else " "
        if before != ".":
            chain = w
        new = to.get(w)
        if new is not None:
            dotted = before == "."
            plain = "-" not in w and snake(w) == w
            if dotted and chain not in aliases and w not in fields and ("-" in w or plain):
                new = None
            elif plain and (rust or after == "."):
                new = None
        if new is not None:
            out.append(text[last:at] + new)
            last = m.end()
    out.append(text[last:])
    return "".join(out)


def main():
    found, fields, specs = declared()
    to = plan(found, specs)
    for p in files():
        with open(p, encoding="utf-8") as f:
            text = f.read()
        known = set(found) | set(to.values())
        flat = {}
        if p.endswith(".edit"):
            # port.py turns no edit, so its own respellings are made up for here
            flat = {w: snake(w) for w in set(WORD.findall(text)) - set(to) if w[0].islower() and "-" not in w and snake(w) != w and snake(w) in known}
        new = turn(text, {**to, **flat}, fields, p.endswith(".rt"))
        if new != text:
            with open(p, "w", encoding="utf-8") as f:
                f.write(new)
    for n in sorted(os.listdir("docs")):
        p = os.path.join("docs", n)
        with open(p, encoding="utf-8") as f:
            text = f.read()
        # port.py turned some names in the files alone: a name that only its words' spelling keeps from being declared is such a one
        known = set(found) | set(to.values())
        flat = {w: v for w in set(WORD.findall(text)) - known - set(to) for v in [snake(w).replace("-", "_")] if w[0].islower() and v != w and v in known}
        new = re.sub(r"`[^`\n]*`", lambda m: turn(m.group(0), {**to, **flat}, set(flat) | set(to), False), text)
        if new != text:
            with open(p, "w", encoding="utf-8") as f:
                f.write(new)
    with open("/tmp/respelled.txt", "w", encoding="utf-8") as f:
        for a, b in to.items():
            f.write(f"{a} {b} {found[a]}\n")
    print(f"{len(to)} names respelled; the list is /tmp/respelled.txt")


main()
