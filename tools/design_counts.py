#!/usr/bin/env python3
"""Counts, point by point, the places of crates/*/src that docs/DESIGN-PASS.md speaks of.

    python3 tools/design_counts.py [--list] [--point N] [--at COMMIT]

Without --at it counts the checkout, with it the files of that commit. --list prints each place.
"""
import argparse
import collections
import io
import re
import subprocess
import sys
import tarfile
from pathlib import Path

TOP = Path(__file__).resolve().parent.parent


def files(commit):
    """Each .rt file of a src/ folder, by its path, as text; and the proof files, by theirs."""
    if commit is None:
        pairs = ((str(p.relative_to(TOP)), p.read_text()) for p in TOP.glob("crates/*/**/*")
                 if p.suffix in (".rt", ".antt") and "out" not in p.parts)
    else:
        data = subprocess.run(["git", "-C", str(TOP), "archive", commit, "crates"],
                              check=True, capture_output=True).stdout
        tar = tarfile.open(fileobj=io.BytesIO(data))
        pairs = ((m.name, tar.extractfile(m).read().decode()) for m in tar.getmembers()
                 if m.name.endswith((".rt", ".antt")))
    every = dict(sorted(pairs))
    source = {p: t for p, t in every.items() if "/src/" in p and p.endswith(".rt")}
    answers = {p: t for p, t in every.items() if "/proofs/" in p and p.endswith("Answers.antt")}
    return source, answers


def code(text):
    """The lines without comments and clauses."""
    return [re.sub(r"//.*", "", line) for line in text.split("\n")]


def grep(source, pattern):
    found = []
    for path, text in source.items():
        for number, line in enumerate(code(text), 1):
            if re.search(r"^\s*(ghost|ensures|requires)\b", line):
                continue
            if re.search(pattern, line):
                found.append(f"{path}:{number}: {line.strip()}")
    return found


def functions(source):
    """Each function as path, line, name, parameters, clauses and body."""
    for path, text in source.items():
        clean = "\n".join(code(text))
        for m in re.finditer(r"\bfn (\w+)", clean):
            start = clean.find("(", m.end())
            depth, end = 0, start
            for end in range(start, len(clean)):
                depth += {"(": 1, ")": -1}.get(clean[end], 0)
                if depth == 0:
                    break
            parameters = clean[start + 1:end]
            opened = re.compile(r"^\s*\{\s*$|\{\s*$", re.M).search(clean, end)
            ended = re.compile(r";\s*$", re.M).search(clean, end)
            if opened is None or (ended and ended.start() < opened.start()):
                continue
            depth, close = 0, opened.end() - 1
            at = clean.rfind("{", 0, opened.end())
            for close in range(at, len(clean)):
                depth += {"{": 1, "}": -1}.get(clean[close], 0)
                if depth == 0:
                    break
            line = clean.count("\n", 0, m.start()) + 1
            yield path, line, m.group(1), parameters, clean[end + 1:at], clean[at:close + 1]


def shape(body):
    tokens = re.findall(r"[A-Za-z_]\w*|\d[\w]*|b?\"[^\"]*\"|\S", body)
    kept = {"for", "in", "if", "else", "match", "return", "let", "mut", "while", "self", "true", "false"}
    return tuple(t if t in kept or not re.match(r"[\w\"]", t) else "x" for t in tokens)


def point1(source, _):
    return {
        "own enums, each read by hand for the shape of Option or Result": grep(source, r"^\s*(pub )?enum \w+"),
        "flags beside values (fields of type bool)": grep(source, r"^\s*(pub(\(super\))? )?\w+: bool,"),
        "numbers for kinds, rules and refusals":
            grep(source, r"\.number\(\)|fn number\(|numbered\(|kind: u8|\bkind (==|!=|>)|rule: \d|_RULES: \[u8|== (255|0xff)|: (255|0xff),"),
    }


def point2(source, _):
    by_shape = collections.defaultdict(list)
    for path, line, name, _, _, body in functions(source):
        if len(shape(body)) >= 30:
            by_shape[shape(body)].append(f"{path}:{line}: fn {name}")
    groups = [" = ".join(g) for g in by_shape.values() if len(g) > 1]
    names = collections.defaultdict(set)
    for path, text in source.items():
        for m in re.finditer(r"^(?:pub(?:\(super\))? )?(?:struct|enum|trait) (\w+)", text, re.M):
            names[m.group(1)].add(path)
    doubled = [f"{n}: " + ", ".join(sorted(p)) for n, p in sorted(names.items()) if len(p) > 1]
    return {"functions of one shape of thirty tokens or more (groups)": groups, "types of one name": doubled}


def point3(source, _):
    return {
        "for over a range": grep(source, r"^\s*for \w+ in .*\.\."),
        "while": grep(source, r"^\s*while "),
    }


def point4(source, _):
    return {
        "equality, order or copying by hand": grep(source, r"^\s*impl.* (Clone|Copy|PartialEq|Eq|PartialOrd|Ord|Hash|Debug) for "),
        "a test of a pattern by hand": grep(source, r"=> true,|_ => false,|None => false,|None => true,"),
        "an option by hand": grep(source, r"None => 0,|None => None,|^\s*if let (Some|Ok|Err)\(_\) ="),
        "numbers from bytes and bytes from numbers by hand": grep(source, r"\* 256|[/%] 256\) as u8"),
        "conversions with a name of their own": grep(source, r"fn (number|numbered|named|source_record)\("),
        "errors printed by hand": grep(source, r"impl fmt::Display for Failure"),
    }


def point5(source, _):
    clauses = collections.defaultdict(list)
    together = collections.defaultdict(list)
    for path, line, name, parameters, head, _ in functions(source):
        crate = path.split("/")[1]
        for m in re.finditer(r"requires(?: \w+)? \{(.*)\}", head):
            clauses[crate, "requires", m.group(1).strip()].append(f"{path}:{line}")
        for m in re.finditer(r"ensures question \{(.*)\}", head):
            clauses[crate, "ensures", m.group(1).strip()].append(f"{path}:{line}")
        listed = re.findall(r"(\w+): ([^,]+)", parameters)
        listed = [(n, t.strip()) for n, t in listed if n not in ("rt", "heap", "f")]
        for i in range(len(listed)):
            for j in range(i + 1, len(listed)):
                together[crate, listed[i], listed[j]].append(f"{path}:{line}: fn {name}")
    facts = [f"{c}: {w} {{ {t} }} in {len(p)}: " + ", ".join(p) for (c, w, t), p in clauses.items() if len(p) > 2]
    pairs = [f"{c}: {a[0]}: {a[1]}, {b[0]}: {b[1]} in {len(p)}" for (c, a, b), p in together.items() if len(p) > 2]
    return {"a fact in three contracts or more": facts, "two parameters together in three functions or more": pairs}


def point6(source, _):
    return {
        "a length beside a buffer": grep(source, r"^\s*(pub(\(super\))? )?len: usize,"),
        "fields that are arrays": grep(source, r"^\s*(pub(\(super\))? )?\w+: \[[^;]+; [^\]]+\],"),
        "values that only fill slots": grep(source, r"^\s*(pub(\(super\))? )?const (NO_\w+|BLANK|ZERO):"),
    }


def point7(source, _):
    return {
        "a match on what to run (by rule, command or form)": grep(source, r"match (rule|first\.as_str\(\)|form|model|self\.model|memory|answer) \{"),
        "keys that stand for a test": grep(source, r"impl Matches<"),
        "tables of functions": grep(source, r"\[fn\(|: fn\("),
    }


def point8(_, answers):
    lines = sum(len([l for l in t.split("\n") if l.strip()]) for t in answers.values())
    count = sum(len(re.findall(r"^(?:pub )?[\w+-]+ : goal\.", t, re.M)) for t in answers.values())
    return {"answers": [f"{count} answers in {len(answers)} files, {lines} lines"] * count}


POINTS = {1: point1, 2: point2, 3: point3, 4: point4, 5: point5, 6: point6, 7: point7, 8: point8}


def main():
    parser = argparse.ArgumentParser(description=__doc__, formatter_class=argparse.RawDescriptionHelpFormatter)
    parser.add_argument("--list", action="store_true")
    parser.add_argument("--point", type=int, choices=sorted(POINTS))
    parser.add_argument("--at")
    given = parser.parse_args()
    source, answers = files(given.at)
    for number, count in POINTS.items():
        if given.point not in (None, number):
            continue
        print(f"point {number}")
        for what, places in count(source, answers).items():
            print(f"  {len(places):4} {what}")
            if given.list and number != 8:
                for place in places:
                    print(f"         {place}")
    return 0


if __name__ == "__main__":
    sys.exit(main())
