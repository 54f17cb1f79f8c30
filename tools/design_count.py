#!/usr/bin/env python3
"""Counts, in crates/*/src, the places that docs/DESIGN-PASS.md speaks of. `tools/design_count.py` prints the counts, with `-v` each place."""
import collections
import glob
import re
import sys

CRATES = {}
for line in open("crates.txt"):
    m = re.match(r"(\w+)( \w+)?:", line)
    if m:
        CRATES[m.group(1)] = line
SOURCES = [
    (p.split("/")[1], p, open(p).read())
    for p in sorted(glob.glob("crates/*/src/*.rt"))
    if p.split("/")[1] in CRATES
]


def block_from(text, at):
    """The text of the braces that open at or after a place."""
    i = text.index("{", at)
    depth = 0
    for j in range(i, len(text)):
        depth += {"{": 1, "}": -1}.get(text[j], 0)
        if depth == 0:
            return text[i + 1 : j]
    return ""


def functions():
    """Each function: crate, name, parameters, clauses, body."""
    for crate, path, text in SOURCES:
        for m in re.finditer(r"(?m)^ *(?:pub )?(?:const )?(?:extern \"C\" )?fn (\w+)(?:<[^>]*>)?\(", text):
            close = text.index(")", m.end())
            params = [re.sub(r"\s+", " ", p).strip() for p in text[m.end() : close].split(",")]
            start = re.search(r"\n *\{\n|\) (?:-> [^{\n]+ )?\{\n", text[close:])
            if not start:
                continue
            at = close + start.start()
            head = text[close:at]
            yield crate, m.group(1), [p for p in params if p], head, block_from(text, at)


def enums():
    """Each enum: crate, name, its variants that carry something and those that carry nothing."""
    for crate, path, text in SOURCES:
        for m in re.finditer(r"(?m)^(?:pub )?enum (\w+)", text):
            body = re.sub(r"//.*", "", block_from(text, m.start()))
            body = re.sub(r"\{[^}]*\}|\([^)]*\)", "()", body)
            variants = [v.strip() for v in body.split(",") if v.strip()]
            yield crate, m.group(1), [v for v in variants if "(" in v], [v for v in variants if "(" not in v]


def shapes():
    """1. Enums that carry a value in one variant and say in the others that there is none, or why."""
    for crate, name, full, bare in enums():
        if full:
            yield f"{crate}::{name}: {', '.join(v.replace('()', '(..)').replace(' ', '') for v in full + bare)}"


def kinds():
    """1. Numbers for kinds: parameters and fields of that name."""
    for crate, path, text in SOURCES:
        for m in re.finditer(r"\b(kind|wording|full|model|status|outcome|refusal|answer|found): (usize|u64|u32|u8)\b", text):
            yield f"{crate}: {m.group(0)}"


def shape_of(body):
    """A body with its names, numbers and clauses taken out."""
    body = re.sub(r"//.*", "", body)
    body = re.sub(r"\b(?!(?:if|else|while|loop|for|in|match|return|break|let|mut)\b)[A-Za-z_][\w:]*", "x", body)
    body = re.sub(r"\b(?:0x[\da-f_]+|\d+)\b|b?'[^']*'|b?\"[^\"]*\"", "n", body)
    return re.sub(r"\s+", "", body)


def twins():
    """2. Functions whose bodies are one text but for names and numbers; of at least two statements."""
    by_shape = collections.defaultdict(list)
    for crate, name, params, head, body in functions():
        if body.count(";") + body.count("{") >= 2:
            by_shape[shape_of(body)].append(f"{crate}::{name}")
    for names in by_shape.values():
        if len(names) > 1:
            yield ", ".join(names)


def loops():
    """3. Loops with `while` or `loop`."""
    for crate, name, params, head, body in functions():
        for m in re.finditer(r"(?m)^ *(?:let \w+ = )?(while [^{]*|loop )\{", body):
            yield f"{crate}::{name}: {m.group(1).strip()}"


def conversions():
    """4. Functions that are one match from a kind to a number or back, and comparisons by hand."""
    for crate, name, params, head, body in functions():
        text = re.sub(r"//.*", "", body).strip()
        if re.fullmatch(r"match [^{]*\{[^{}]*\}", text) and "=>" in text and "(" not in re.sub(r"\w+\([\w, ]*\) =>", "", text.split("{", 1)[1]):
            yield f"{crate}::{name}: match"
        elif re.match(r"(same|equal|is_same|is_equal)", name):
            yield f"{crate}::{name}: comparison"


def travelling():
    """5. Runs of parameters that three functions or more have."""
    groups = collections.defaultdict(set)
    for crate, name, params, head, body in functions():
        names = [p.split(":")[0] for p in params]
        for i in range(len(names)):
            for j in range(i + 2, len(names) + 1):
                groups[tuple(names[i:j])].add(f"{crate}::{name}")
    for names, where in sorted(groups.items()):
        longer = any(set(names) < set(o) and where == w for o, w in groups.items())
        if len(where) >= 3 and not longer:
            yield f"({', '.join(names)}): {len(where)}"


def repeated():
    """5. A `requires` that stands in three functions or more."""
    clauses = collections.defaultdict(set)
    for crate, name, params, head, body in functions():
        for m in re.finditer(r"requires(?: \w+)? \{ ([^}]*) \}", head):
            clauses[m.group(1)].add(f"{crate}::{name}")
    for clause, where in sorted(clauses.items()):
        if len(where) >= 3:
            yield f"{clause}: {len(where)}"


def lengths():
    """6. A slice with a count or a length beside it, as parameters or as fields."""
    for crate, path, text in SOURCES:
        for m in re.finditer(r"\b(\w+): (?:&(?:'a )?(?:mut )?\[\w+\]|usize),\s*(?:pub )?(\w*(?:count|length|height))\b: usize", text):
            yield f"{crate}: {m.group(1)}, {m.group(2)}"


def switches():
    """7. A match whose arms are calls."""
    for crate, name, params, head, body in functions():
        for m in re.finditer(r"match [^{]*\{", body):
            arms = re.findall(r"=> *(.*)", block_from(body, m.start()))
            if len(arms) > 3 and all(re.match(r"(\w+::)*[a-z_]+\(", a) for a in arms):
                yield f"{crate}::{name}: {len(arms)} arms"


def answers():
    """8. Answers in proofs/."""
    for path in sorted(glob.glob("crates/*/proofs/*/*.antt")):
        if path.split("/")[1] in CRATES:
            for m in re.finditer(r"(?m)^pub [\w-]+ : goal\.([\w-]+)", open(path).read()):
                yield f"{path}: {m.group(1)}"


for search in (shapes, kinds, twins, loops, conversions, travelling, repeated, lengths, switches, answers):
    places = list(search())
    print(f"{search.__doc__} {len(places)}")
    if "-v" in sys.argv[1:] and search is not answers:
        for place in places:
            print("    " + place)
