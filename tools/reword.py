#!/usr/bin/env python3
"""Turns what the toolchain's own script leaves in src/: the house's words `was` and `became` in clauses, which are today `.now` of a `&`, `.old` and `.new` of a
`&mut`; and the derives of types that were copied. Run once, at the top, after tools/respell.py.

usage: python3 tools/reword.py
"""
import os
import re


def sources():
    for folder, dirs, names in os.walk("crates"):
        dirs[:] = sorted(d for d in dirs if d != "out")
        for n in sorted(names):
            if n.endswith(".rt"):
                yield os.path.join(folder, n)


def reworded(text):
    """In each clause the two words, by the function's parameters."""
    heads = [(m.start(), m.end()) for m in re.finditer(r"\bfn \w+", text)]
    out, at = [], 0
    for k, (a, b) in enumerate(heads):
        end = heads[k + 1][0] if k + 1 < len(heads) else len(text)
        part = text[a:end]
        head = re.match(r"fn \w+\s*(?:<[^>]*>)?\(([^)]*)\)", part, re.S)
        if head:
            lent = set(re.findall(r"(\w+)\s*:\s*&\s*mut\b", head.group(1)))
            body = re.search(r"\n\{", part)
            stop = body.start() if body else len(part)
            clause = part[:stop]
            lines = clause.split("\n")
            for i, line in enumerate(lines):
                if not line.lstrip().startswith("//"):
                    line = re.sub(r"\(was (\w+)\)|\bwas (\w+)\b", lambda m: (m.group(1) or m.group(2)) + (".old" if (m.group(1) or m.group(2)) in lent else ".now"), line)
                    lines[i] = re.sub(r"\(became (\w+)\)|\bbecame (\w+)\b", lambda m: (m.group(1) or m.group(2)) + ".new", line)
            clause = "\n".join(lines)
            part = clause + part[stop:]
        out += [text[at:a], part]
        at = end
    out.append(text[at:])
    text = "".join(out)

    def import_line(m):
        names = [n.strip() for n in m.group(2).split(",") if n.strip() not in ("was", "became")]
        return f"{m.group(1)}{{{', '.join(names)}}};\n" if names else ""

    return re.sub(r"^(ghost use Rattle\.numbers\.specs\.Notation\.)\{([^}]*)\};\n", import_line, text, flags=re.M)


for p in sources():
    with open(p, encoding="utf-8") as f:
        t = f.read()
    u = reworded(t).replace("#[derive(Drop)]", "#[derive(Clone, Copy)]")
    if u != t:
        with open(p, "w", encoding="utf-8") as f:
            f.write(u)
