#!/usr/bin/env python3
"""Brings the repository's own names to the spelling of the installed Rattle. Run once, at the top, on what the kit's port.py left.

usage: python3 tools/respell.py

- A name of specs/ or of a lemma file that has a dash becomes snake case, or camel case where it begins with a capital
  (`the-unit` -> `the_unit`, `Freeze-set` -> `FreezeSet`). Names of the kit's library and the names that Rattle makes for a function's
  proof keep theirs, and so do all names of src/, strings, inputs and outputs.
- The crate `log` has the name of a library of the kit: it becomes `replay_log`.
- In must-fail edits and in the pages' `code` the same names are turned.

Stops, and changes nothing, where two names would fall together.
"""
import collections
import os
import re
import sys

NAME = re.compile(r"[A-Za-z_][\w'′]*(?:-[\w'′]+)*")
USE = re.compile(r"^\s*(?:pub |ghost )*use ([^\s{;]*?)\.?(?:\{([^}]*)\})?;?$", re.M)
CRATES = sorted(os.listdir("crates"))


def kind_of(path):
    parts = path.split("/")[2:]
    if path.endswith(".rt"):
        return "code"
    if path.endswith(".edit"):
        return "edit"
    if parts[0] == "specs":
        return "specs"
    return "lemmas" if len(parts) == 2 else "function"


def paths():
    for folder, dirs, files in os.walk("crates"):
        dirs[:] = sorted(d for d in dirs if d != "out")
        for f in sorted(files):
            if f.endswith((".rt", ".antt", ".edit")):
                yield os.path.join(folder, f)


def read(path):
    with open(path, encoding="utf-8") as f:
        return f.read()


def without_comments(text, mark):
    return "\n".join(line.split(mark)[0] for line in text.split("\n"))


def turned(name):
    parts = name.replace("′", "'").split("-")
    if name[0].isupper():
        return "".join(p[:1].upper() + p[1:] for p in parts)
    return "_".join(parts)


texts = {p: read(p) for p in paths()}
library, where = set(), collections.defaultdict(set)
for path, text in texts.items():
    kind = kind_of(path)
    if kind == "edit":
        continue
    code = without_comments(text, "//" if kind == "code" else "--")
    for m in USE.finditer(code):
        crate = re.match(r"Rattle\.(\w+)\.", m.group(1))
        if not (crate and crate.group(1) in CRATES) and m.group(2):
            library |= {x.strip().split(" as ")[-1].strip() for x in m.group(2).split(",")}
    for name in NAME.findall(code):
        where[name].add((kind, path))

own = {n: turned(n) for n in where if ("-" in n or "′" in n) and n not in library and any(k in ("specs", "lemmas") for k, _ in where[n])}
for old, new in own.items():
    others = [o for o in own if own[o] == new and o != old]
    together = {p for k, p in where[new] & where[old] if k in ("specs", "lemmas")} if new in where else set()
    if others or together or new in library:
        sys.exit(f"respell: {old} would fall together with {others or sorted(together) or 'a name of the library'}: {new}")


def respell(text):
    return NAME.sub(lambda m: own.get(m.group(0), m.group(0)), text)


def respell_code(text):
    return "".join(part if i % 2 else respell(part) for i, part in enumerate(re.split(r'("(?:[^"\\\n]|\\.)*")', text)))


def new_log(text):
    text = re.sub(r"\bRattle\.log\.", "Rattle.replay_log.", text)
    text = re.sub(r"(?<![\w.:/])log::", "replay_log::", text)
    return re.sub(r"\buse log::", "use replay_log::", text)


for path, text in texts.items():
    new = new_log(respell_code(text) if kind_of(path) in ("code", "edit") else respell(text))
    if new != text:
        with open(path, "w", encoding="utf-8") as f:
            f.write(new)

if os.path.isdir("crates/log"):
    os.rename("crates/log", "crates/replay_log")
    table = read("crates.txt")
    with open("crates.txt", "w", encoding="utf-8") as f:
        f.write(re.sub(r"(?m)^([^#\n]*)", lambda m: re.sub(r"\blog\b", "replay_log", m.group(1)), table))

# In the pages: what stands between backquotes, where the name in its new spelling is one of the crates.
known = set()
for path in paths():
    known |= set(NAME.findall(read(path)))
pages = ["README.md"] + [os.path.join(d, f) for d, _, fs in os.walk("docs") for f in fs if f.endswith(".md")]
pages += [os.path.join(d, "README.md") for d in ("apart", "bench", "cases", "examples", "tests") if os.path.exists(os.path.join(d, "README.md"))]
for page in pages:
    text = read(page)

    def word(m):
        return turned(m.group(0)) if ("-" in m.group(0) and turned(m.group(0)) in known) else m.group(0)

    new = re.sub(r"`[^`\n]+`", lambda m: NAME.sub(word, m.group(0)).replace("crates/log/", "crates/replay_log/").replace("log::", "replay_log::"), text)
    if new != text:
        with open(page, "w", encoding="utf-8") as f:
            f.write(new)
print(f"respell: {len(own)} names")
