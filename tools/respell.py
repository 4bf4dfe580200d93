#!/usr/bin/env python3
"""Brings this repository's own definitions and lemmas to today's spelling: words in snake case, types and modules in camel case. Run once, at the top, right
after the toolchain's own script. It goes by text: a name that a file of specs/ or proofs/ declares is turned wherever it stands as a name of this repository, in
those files, in the clauses of src/ and between backticks of comments and documents. Names of src/, of the library and those that the toolchain makes stay.

usage: python3 tools/respell.py            turns the files in place, prints what fell together
       python3 tools/respell.py --table    prints old and new names, and changes nothing
"""
import collections
import os
import re
import sys

OWN = sorted(os.listdir("crates"))
PARTS = re.compile(r"[^\s(){}\[\];.,@\"«»⟦⟧`]+")
HEAD = re.compile(r"^(\s*)((?:(?:abbrev|unfoldable|pub|data|record|instance)\s+)*)([^\s:(){}.,;@]+)\s*(:|\()")
# lemmas whose new name would be that of a definition or of a word of the library
LEMMA = "_lem"
PROSE = ["README.md", "docs/PROOF.md", "docs/DECISIONS.md", "docs/DIFFERENCES.md", "compare/README.md"] + [f"docs/wishes/{n}.md" for n in (1, 2, 3, 6)]


def files(ends):
    for folder, dirs, names in os.walk("crates"):
        dirs[:] = sorted(d for d in dirs if d != "out")
        for n in sorted(names):
            if n.endswith(ends):
                yield os.path.join(folder, n)


def snake(name, kind):
    """The new spelling of one name."""
    name = name.replace("·", "-")
    if kind == "type":
        return "".join(p[:1].upper() + p[1:] for p in name.split("-"))
    out = []
    for p in name.split("-"):
        out.append(p if p[:1].isupper() else re.sub(r"(?<=[a-z0-9'])([A-Z])", lambda m: "_" + m.group(1).lower(), p))
    return "_".join(out)


def imported(text):
    """Names that a file takes from the library, or from what the toolchain makes."""
    got = set()
    for m in re.finditer(r"^\s*(?:ghost\s+)?use\s+([^\s{;]+?)\.?\{([^}]*)\}", text, re.M):
        path = m.group(1).split(".")
        if path[0] == "Rattle" and len(path) > 1 and path[1] in OWN and path[-1] not in ("Goals", "Tie", "Statement", "Given", "Met"):
            continue
        for item in m.group(2).split(","):
            got.add(item.split(" as ")[-1].strip())
    return got


def declared(path, text):
    """Own names that a file declares, with their kind; the answers to the toolchain's goals are not among them."""
    for line in text.split("\n"):
        if line.lstrip().startswith("--"):
            continue
        m = HEAD.match(line)
        if not m or m.group(3) in ("use", "mod", "module"):
            continue
        rest = line[m.end():]
        if "tie." in rest or re.match(r"[^:]*\{M : Type 1\} → statement M", rest):
            continue
        words = m.group(2).split()
        if m.group(4) == "(" and "record" not in words and "data" not in words:
            continue
        yield m.group(3), "type" if ("record" in words or "data" in words or re.search(r"Type 0\s*$", rest) and m.group(3)[:1].isupper()) else "word"


def table():
    kinds = {}
    where = collections.defaultdict(set)
    for p in files((".antt",)):
        with open(p, encoding="utf-8") as f:
            for name, kind in declared(p, f.read()):
                where[name].add(p)
                if kinds.get(name) != "type":
                    kinds[name] = kind
    new = {n: snake(n, k) for n, k in kinds.items() if "◌" not in n and snake(n, k) != n}
    taken = collections.defaultdict(list)
    for n in kinds:
        taken[new.get(n, n)].append(n)
    library = set()
    for p in files((".antt",)):
        with open(p, encoding="utf-8") as f:
            library |= imported(f.read())
    for name, olds in sorted(taken.items()):
        if len(olds) > 1 or (name in library and olds[0] in new):
            # the definition keeps the plain name: it was written in camel case, or stood so before; a lemma had dashes
            for o in olds:
                if o in new and "-" in o:
                    new[o] = name + LEMMA
                    print(f"fell together: {o} is {name}{LEMMA}, beside {', '.join(x for x in olds if x != o) or 'the library'}", file=sys.stderr)
    return new


# lemmas that were spelled so before already, and whose definition was in camel case: old name, new name, the files that declare them or take them
SPELLED = ["one_more", "held_then", "turned_by", "read_told", "too_many", "with_part", "left_out", "no_step"]


def spelled_before(text, path):
    """The lemmas of SPELLED that this file declares, or takes from a file of proofs/."""
    got = set()
    if "/proofs/" in path:
        got |= {m.group(1) for m in re.finditer(r"^\s*(?:pub )?(" + "|".join(SPELLED) + r") :", text, re.M)}
        for m in re.finditer(r"^use Rattle\.\w+\.proofs\.[\w.]*\.\{([^}]*)\}", text, re.M):
            got |= {x.strip() for x in m.group(1).split(",")} & set(SPELLED)
    return {n: n + LEMMA for n in got}


def turned(text, new, keep):
    def one(m):
        w = m.group(0)
        return w if w in keep else new.get(w, w)
    return PARTS.sub(one, text)


def ticked(text, new):
    return re.sub(r"`[^`\n]+`", lambda m: turned(m.group(0), new, ()), text)


def of_antt(text, new):
    keep = imported(text)
    answers = {m.group(1) for m in re.finditer(r"^([^\s:]+) : tie\.", text, re.M)} | {m.group(1) for m in re.finditer(r"^(?:pub )?([^\s:]+) : \{M : Type 1\}", text, re.M)}
    out = []
    for line in text.split("\n"):
        i = line.find("-- ") if line.lstrip().startswith("--") else -1
        if i >= 0:
            out.append(ticked(line, new))
        else:
            use = re.match(r"^\s*use\s+([^\s{]+?)\.?\{", line)
            path = use.group(1).split(".") if use else None
            if path and not (path[0] == "Rattle" and len(path) > 1 and path[1] in OWN):
                out.append(line)
            else:
                out.append(turned(line, new, keep | answers))
    return "\n".join(out)


def clauses(text):
    """Where the clauses of a source stand: from a brace to its partner."""
    spans = []
    for m in re.finditer(r"\b(?:requires|ensures)\*?(?: \w+)? \{", text):
        i, depth = m.end(), 1
        while depth:
            depth += {"{": 1, "}": -1}.get(text[i], 0)
            i += 1
        spans.append((m.end(), i - 1))
    for m in re.finditer(r"^ghost use Rattle\.(\w+)\.[^;]*;", text, re.M):
        if m.group(1) in OWN:
            spans.append((m.start(), m.end()))
    return sorted(spans)


def of_source(text, new):
    keep = {w for m in re.finditer(r"^ghost use (?!Rattle\.(?:" + "|".join(OWN) + r")\.)[^{;]*\{([^}]*)\}", text, re.M) for w in (x.split(" as ")[-1].strip() for x in m.group(1).split(","))}
    out, at = [], 0
    for a, b in clauses(text):
        if a < at:
            continue
        out += [text[at:a], turned(text[a:b], new, keep)]
        at = b
    out.append(text[at:])
    return "\n".join(ticked(l, new) if l.lstrip().startswith("//") else l for l in "".join(out).split("\n"))


def main():
    new = table()
    if "--table" in sys.argv:
        for o, n in sorted(new.items()):
            print(f"{o}\t{n}")
        return
    jobs = [(p, of_antt) for p in files((".antt",))] + [(p, of_source) for p in files((".rt",))]
    jobs += [(p, ticked) for p in PROSE]
    for p in files((".edit",)):
        with open(p, encoding="utf-8") as f:
            if f.readline().startswith("file: specs/"):
                jobs.append((p, lambda t, n: turned(t, n, ())))
    for p, how in jobs:
        with open(p, encoding="utf-8") as f:
            t = f.read()
        u = how(t, new | spelled_before(t, p))
        if u != t:
            with open(p, "w", encoding="utf-8") as f:
                f.write(u)


main()
