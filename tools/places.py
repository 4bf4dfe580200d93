#!/usr/bin/env python3
"""Counts the places of the design pass in src/ (docs/DESIGN-PASS.md): `python3 tools/places.py [COMMIT]`, at a commit or in the files as they stand."""
import collections
import re
import subprocess
import sys


def sources(commit):
    """Path and text of each file of src/, of every crate."""
    if commit:
        names = subprocess.run(["git", "ls-tree", "-r", "--name-only", commit, "crates"], capture_output=True, text=True, check=True).stdout.split()
        read = lambda p: subprocess.run(["git", "show", f"{commit}:{p}"], capture_output=True, text=True, check=True).stdout
    else:
        names = subprocess.run(["git", "ls-files", "-co", "--exclude-standard", "crates"], capture_output=True, text=True, check=True).stdout.split()
        read = lambda p: open(p).read()
    return {p: read(p) for p in sorted(names) if p.split("/")[2:3] == ["src"] and p.endswith(".rt")}


def code(text):
    """The text without comments and without contracts."""
    text = re.sub(r"//.*", "", text)
    return re.sub(r"^\s*(?:requires|ensures)\b[^\n]*(?:\n {8,}[^\n]*)*", "", text, flags=re.M)


def crate(path):
    return path.split("/")[1]


def enums(files):
    """1: every enum with its variants; whether it has the shape of Option or Result is for a reader to say."""
    for p, t in files.items():
        for m in re.finditer(r"\benum (\w+)[^{]*\{(.*?)\n\}", code(t), re.S):
            variants = ", ".join(re.findall(r"^    (\w+)", m.group(2), re.M))
            yield f"{crate(p)}::{m.group(1)} {{ {variants} }}"


def flags(files):
    """1: a bool that stands in a struct beside a value."""
    for p, t in files.items():
        for m in re.finditer(r"\bstruct (\w+)[^{;]*\{(.*?)\n\}", code(t), re.S):
            for f in re.findall(r"(\w+): bool\b", m.group(2)):
                yield f"{crate(p)}::{m.group(1)}.{f}"


def twins(files):
    """2: functions of one crate whose names differ only in digits or in a word for a size or a type; and structs."""
    word = r"_?(?:small|middle|large|doubles|singles|counts|f32|f64|F32|Wide)|\d+"
    for kind in ("fn", "struct"):
        groups = collections.defaultdict(list)
        for p, t in files.items():
            for n in re.findall(r"^\s*(?:pub )?(?:extern \"C\" )?" + kind + r" (\w+)", code(t), re.M):
                groups[crate(p), re.sub(word, "", n)].append(n)
        for (c, _), ns in sorted(groups.items()):
            if len(set(ns)) > 1:
                yield f"{c}: {' '.join(sorted(set(ns)))}"


def loops(files):
    """3: `while` and `loop`."""
    for p, t in files.items():
        for m in re.finditer(r"^\s*((?:while|loop)\b.*)", code(t), re.M):
            yield f"{crate(p)}: {m.group(1)}"


def own(files):
    """4: functions whose whole body is a cast, a comparison of two numbers or one arm for each variant: what a library method says as well."""
    body = r"fn (\w+)(?:<[^>]*>)?\(([^)]*)\)[^{]*\{\s*(?:(\w+) as \w+|if \w+ <=? \w+ \{ \w+ \} else \{ \w+ \}|if (\w+) == 0 \{ 0 \} else \{ \w+ - 1 \}|match \w+ \{\s*[\w:]+(?:\(_\))? => (?:true|false),\s*[\w:]+(?:\(_\))? => (?:true|false),\s*\})\s*\}"
    for p, t in files.items():
        for m in re.finditer(body, code(t)):
            yield f"{crate(p)}::{m.group(1)}"


def together(files):
    """5: functions that take three or more of the lists of a graph or of its links, or work with its count of unknowns; and facts of three or more contracts."""
    sets = [("poses", "ends", "edges", "fixed"), ("ends", "edges", "blocks", "free"), ("w", "n", "f"), ("w", "n", "dof")]
    for p, t in files.items():
        for m in re.finditer(r"\bfn (\w+)(?:<[^>]*>)?\(([^)]*)\)", code(t)):
            names = set(re.findall(r"(\w+):", m.group(2)))
            for s in sets:
                if len(names & set(s)) >= 3 and set(s[:1]) <= names | set(s[1:2]):
                    yield f"{crate(p)}::{m.group(1)} ({', '.join(x for x in s if x in names)})"
                    break


def facts(files):
    for p, t in files.items():
        said = collections.Counter()
        for m in re.finditer(r"requires[^{\n]*\{(.*)\}", t):
            said.update(set(x.strip(" ()") for x in re.split("×", m.group(1))))
        for f, k in said.items():
            if k >= 3:
                yield f"{crate(p)}: {f} ({k})"


def buffers(files):
    """6: an array with a count of what is used beside it, in one struct."""
    for p, t in files.items():
        for m in re.finditer(r"\bstruct (\w+)[^{;]*\{(.*?)\n\}", code(t), re.S):
            if re.search(r": \[\w+; \d+\]", m.group(2)) and re.search(r": (usize|u32),", m.group(2)):
                yield f"{crate(p)}::{m.group(1)}"


def switches(files):
    """7: a `match` or a chain of `if`s on a number, each arm a call."""
    for p, t in files.items():
        for m in re.finditer(r"\bfn (\w+)[^{]*\{\s*match (\w+) \{\s*\d+ =>", code(t)):
            yield f"{crate(p)}::{m.group(1)}"


def main():
    files = sources(sys.argv[1] if len(sys.argv) > 1 else None)
    for title, found in (("1 enums", enums), ("1 flags", flags), ("2 twins", twins), ("3 while and loop", loops), ("4 own small functions", own),
                         ("5 parameters together", together), ("5 facts of three contracts or more", facts), ("6 buffers with a count", buffers), ("7 switches on a number", switches)):
        places = list(found(files))
        print(f"{title}: {len(places)}")
        for x in places:
            print(f"    {x}")


main()
