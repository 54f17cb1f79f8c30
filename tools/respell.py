#!/usr/bin/env python3
"""Brings the names of the repository's own definitions and lemmas to one spelling: words in snake case.

usage: python3 tools/respell.py [ROOT]      once, after the toolchain's port.py, over all crates below ROOT

A definition, a field, a constructor or a lemma that specs/ or proofs/ declare as `codeSize` or `code-size` becomes `code_size`, wherever it
is named: in specs/, proofs/, the clauses of src/, must-fail edits, and in backquotes on the pages. Types, modules, functions of src/, texts in
quotes and what a function's own proof file declares keep their names. Where a definition and a lemma would
fall together in a file, as `sizeFits` and `size-fits`, the definition takes the name and the lemma keeps its hyphens; each name that is left is printed.
"""

import os
import re
import sys

ROOT = sys.argv[1] if len(sys.argv) > 1 else "."
CRATES = os.path.join(ROOT, "crates")
DECLARED = re.compile(r"^\s*(?:(?:unfoldable|abbrev|opaque|pub|private) )*([a-z][^\s(){}\[\]:,.;\"]*) :(?: |$)", re.M)
USED = re.compile(r"^(?:ghost )?use (\S+?)\.\{([^}]*)\}", re.M)
WORDS = set("use mod pub abbrev unfoldable unfolding data record where let in with module match if then else as infix infixl infixr elim do open".split())
SOLID = r"[^\s(){}\[\],.;:\"`]+"


def texts(*ends):
    for folder, dirs, files in os.walk(CRATES):
        dirs[:] = sorted(d for d in dirs if d != "out")
        for f in sorted(files):
            if f.endswith(ends):
                path = os.path.join(folder, f)
                with open(path, encoding="utf-8") as opened:
                    yield path, opened.read()


def own_proof(path):
    """The hand-written proof of one function: what it declares are answers, named by the toolchain."""
    return os.path.basename(path) in ("Proof.antt", "Answers.antt", "Invariants.antt")


def snake(name):
    name = name.replace("-", "_")
    name = re.sub(r"([a-z0-9])([A-Z])", r"\1_\2", name)
    return name.lower() if re.search(r"[A-Z]", name) else name


def renamed():
    own = set(os.listdir(CRATES))
    declared, used = {}, set()
    for path, text in texts(".antt", ".rt"):
        for m in USED.finditer(text):
            parts = m.group(1).split(".")
            if not (parts[0] == "Rattle" and len(parts) > 1 and parts[1] in own):
                used.update(n.strip().split(" as ")[-1].strip() for n in m.group(2).split(","))
        if path.endswith(".antt") and not own_proof(path):
            for m in DECLARED.finditer(text):
                declared.setdefault(m.group(1), path)
    # the files in which a name stands: two names may become one where no file has both
    stands = {}
    for path, text in texts(".antt"):
        text = re.sub(r"(?m)(?:(?<=\s)|^)--.*$", "", text)
        for word in set(re.findall(r"(?<!\.)" + SOLID, text)):
            stands.setdefault(word, set()).add(path)
    to = {}
    for name in sorted(declared, key=lambda n: ("-" in n, n)):
        new = snake(name)
        if new == name:
            continue
        others = [n for n in [new] + [n for n in to if to[n] == new] if stands.get(n, set()) & stands[name]]
        if others or name in used or new in WORDS:
            lemma = new.replace("_", "-")
            if others == [new] and "-" not in name and new in declared and new not in used and lemma not in stands and lemma not in to.values():
                # the lemma was spelled with hyphens until port.py turned it, and is again
                to[new] = lemma
            else:
                print(f"left: {name} ({declared[name]}): {new} is another name already")
                continue
        to[name] = new
    return to


def turn(text, to, dotted_kebabs):
    """A text of antt or Rattle, its comments by their own rule, its quoted texts left as they are."""
    def code(piece, dotted):
        def one(m):
            word = m.group(0)
            new = to.get(word)
            if new is None:
                return word
            if m.start() > 0 and piece[m.start() - 1] == "." and ("-" in word and not dotted or "-" in new):
                return word
            return new
        return re.sub(SOLID, one, piece)

    out = []
    for line in text.split("\n"):
        pieces = re.split(r"(\"(?:[^\"\\]|\\.)*\"|(?:(?<=\s)|^)(?:--|//).*$)", line)
        for i, piece in enumerate(pieces):
            if i % 2 == 0:
                pieces[i] = code(piece, dotted_kebabs)
            elif not piece.startswith('"'):
                pieces[i] = re.sub(SOLID, lambda m: to.get(m.group(0), m.group(0)) if "-" not in m.group(0) else m.group(0), piece)
                pieces[i] = re.sub(r"`[^`]+`", lambda m: code(m.group(0), True), pieces[i])
        out.append("".join(pieces))
    return "\n".join(out)


def main():
    to = renamed()
    changed = 0
    for path, text in list(texts(".antt", ".rt", ".edit")):
        # hyphens come back to lemmas alone, and no source names one
        names = to if path.endswith(".antt") else {n: t for n, t in to.items() if "-" not in t}
        new = turn(text, names, not own_proof(path))
        if new != text:
            changed += 1
            with open(path, "w", encoding="utf-8") as f:
                f.write(new)
    pages = [os.path.join(ROOT, "README.md")] + [os.path.join(ROOT, "docs", f) for f in sorted(os.listdir(os.path.join(ROOT, "docs"))) if f.endswith(".md")]
    for path in pages:
        with open(path, encoding="utf-8") as f:
            text = f.read()
        new = re.sub(r"`[^`\n]+`", lambda m: re.sub(SOLID, lambda w: to.get(w.group(0), w.group(0)), m.group(0)), text)
        if new != text:
            changed += 1
            with open(path, "w", encoding="utf-8") as f:
                f.write(new)
    print(f"respell: {len(to)} names, {changed} files")


if __name__ == "__main__":
    main()
