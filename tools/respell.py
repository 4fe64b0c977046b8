#!/usr/bin/env python3
"""Brings the repository's own definitions and lemmas to today's spelling: words in snake case, types and statements in camel case.

usage: python3 tools/respell.py     at the top of the repository, once, after port.py

A name is ours if a file of specs/ or proofs/ declares it: by a signature, as a field, a constructor, an alias or a bound variable.
What a library declares, and what Rattle makes from a function (the goals and the fields of `c`), keeps its spelling.
Comments and strings keep their words, but for names between backquotes.
"""

import collections
import glob
import os
import re
import sys

TOKEN = re.compile(r"(?<![\w'-])[A-Za-z_ℕ][\w'ℕℤ]*(?:-[\w'ℕℤ]+)+(?![\w'])")
SIGNATURE = re.compile(r"^\s*(?:(?:abbrev|unfoldable|pub|data|record|ruleset|mutual) )*([^\s:(){}|=;,]+(?: [^\s:(){}|=;,]+)*)(?: [({][^\n]*)? :\s", re.M)
LIBRARY = re.compile(r"use (?:Rattle\.(?:std|core)|base|native|mathlib|lib|borrow|Prim)\b[^\n{]*\{([^}]*)\}")
IMPORT = re.compile(r"use ([\w.+'-]+)\.\{([^}]*)\}")


def respelled(name):
    if name[0].isupper():
        return "".join(w[0].upper() + w[1:] for w in name.split("-"))
    return name.replace("-", "_")


def files(kind):
    return sorted(f for f in glob.glob("crates/**/*." + kind, recursive=True) if "/out/" not in f)


def read(f):
    with open(f, encoding="utf-8") as t:
        return t.read()


def without_comments(text):
    return re.sub(r"(?m)--\s.*$", "", text)


def in_function_folder(f):
    return "/proofs/" in f and os.path.basename(f) in ("Answers.antt", "Invariants.antt", "Proof.antt")


def ours():
    """The names with a dash that the files of specs/ and the lemma files use and no library declares."""
    names = set()
    for f in files("antt"):
        if in_function_folder(f):
            continue
        text = without_comments(read(f))
        library = {t for m in LIBRARY.finditer(text) for t in TOKEN.findall(m[1])}
        names |= set(TOKEN.findall(text)) - library
    return names


def library_names():
    return {t for f in files("antt") + files("rt") for m in LIBRARY.finditer(read(f)) for t in TOKEN.findall(m[1])}


def turned_line(line, names, local):
    """One line of antt, comment apart."""
    parts = re.split(r"(--\s.*$)", line, maxsplit=1)
    code = parts[0]

    def turn(m):
        name = m[0]
        if name not in names or name in local:
            return name
        before = code[: m.start()]
        if re.search(r"\bgoal\.$", before):
            return name
        if re.search(r"(?<![\w'.-])[cl]\.(?:[\w'-]+\.)*$", before) and name not in FIELDS:
            return name
        return respelled(name)

    out = TOKEN.sub(turn, code)
    if len(parts) > 1:
        out += re.sub(r"`([^`]+)`", lambda m: "`" + TOKEN.sub(lambda n: respelled(n[0]) if n[0] in names else n[0], m[1]) + "`", parts[1])
        out += "".join(parts[2:])
    return out


def turned_antt(f, text, names):
    local = {t for m in LIBRARY.finditer(text) for t in TOKEN.findall(m[1])}
    if in_function_folder(f):
        local |= set(re.findall(r"(?m)^(?:abbrev )?pub ([^\s:]+) : goal\.", text))
        local |= {t for m in re.finditer(r"use Rattle\.[\w.+'-]+\.Goals\.\{([^}]*)\}", text) for t in TOKEN.findall(m[1])}
    return "\n".join(turned_line(l, names, local) for l in text.split("\n"))


def turned_source(text, names):
    """The clauses and imports of a source file: a name of ours stands in no string, comment or Rust code."""
    out = []
    for line in text.split("\n"):
        code, comment = line, ""
        m = re.match(r"^(\s*)(//.*)$", line)
        if m:
            code, comment = m[1], re.sub(r"`([^`]+)`", lambda b: "`" + TOKEN.sub(lambda n: respelled(n[0]) if n[0] in names else n[0], b[1]) + "`", m[2])
        pieces = re.split(r'("(?:[^"\\]|\\.)*")', code)
        out.append("".join(p if i % 2 else TOKEN.sub(lambda n: respelled(n[0]) if n[0] in names else n[0], p) for i, p in enumerate(pieces)) + comment)
    return "\n".join(out)


def fields(names):
    """The fields of our records: they may stand behind any value."""
    found = set()
    for f in files("antt"):
        if in_function_folder(f):
            continue
        inside = False
        for l in read(f).split("\n"):
            if re.match(r"\s*(pub )?(record|data) ", l):
                inside = True
                continue
            if inside:
                m = re.match(r"\s+(?:pub )?([\w'-]+) : ", l)
                if m:
                    found.add(m[1])
                elif not l.strip().startswith("--") and l.strip() and not l.startswith(" "):
                    inside = False
                elif l.strip() == "":
                    inside = False
    return found & names


def renamed_crate(old, new):
    """A crate whose name a library of today's Rattle has takes another, with its folder and the paths into it."""
    if not os.path.isdir(os.path.join("crates", old)):
        return
    os.rename(os.path.join("crates", old), os.path.join("crates", new))
    for f in files("antt") + files("rt"):
        text = read(f)
        turned = re.sub(rf"\bRattle\.{old}\.", f"Rattle.{new}.", text)
        if f.endswith(".rt"):
            turned = re.sub(rf"\buse {old}::", f"use {new}::", turned)
        if turned != text:
            with open(f, "w", encoding="utf-8") as t:
                t.write(turned)
    lines = [l if l.startswith("#") else re.sub(rf"\b{old}\b", new, l) for l in read("crates.txt").split("\n")]
    with open("crates.txt", "w", encoding="utf-8") as t:
        t.write("\n".join(lines))


def main():
    global FIELDS
    names = ours() - {n for n in library_names() if n not in DECLARED}
    FIELDS = fields(names)
    taken = collections.defaultdict(set)
    for n in names:
        taken[respelled(n)].add(n)
    words = set()
    for f in files("antt"):
        words |= set(re.findall(r"(?<![\w'.-])[A-Za-z_][\w']*(?![\w'-])", without_comments(read(f))))
    clash = sorted(n for n, old in taken.items() if len(old) > 1 or n in words)
    for n in clash:
        print("falls together:", n, sorted(taken[n]))
    changed = 0
    for f in files("antt"):
        text = read(f)
        new = turned_antt(f, text, names)
        if new != text:
            changed += 1
            with open(f, "w", encoding="utf-8") as t:
                t.write(new)
    for f in files("rt"):
        text = read(f)
        new = turned_source(text, names)
        if new != text:
            changed += 1
            with open(f, "w", encoding="utf-8") as t:
                t.write(new)
    renamed_crate("hex", "hexadecimal")
    print(f"{len(names)} names respelled in {changed} files, {len(clash)} fall together")
    return 0


FIELDS = set()
DECLARED = set()
if __name__ == "__main__":
    sys.exit(main())
