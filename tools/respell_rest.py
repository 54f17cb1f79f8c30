#!/usr/bin/env python3
"""Brings the names that tools/respell.py leaves to snake case: constructors, fields and parameters that stand in lists.

usage: python3 tools/respell_rest.py [ROOT]      once, after tools/respell.py
"""

import os
import re
import sys

ROOT = sys.argv[1] if len(sys.argv) > 1 else "."
NAME = re.compile(r"(?<![\w\"])([a-z]+[a-z0-9]*(?:[A-Z][a-z0-9]*)+)(?![\w\"])")
# texts that Java or the JVM's descriptors have, and one lemma that would fall together with a definition
KEPT = {"readNext"}
TEXT = re.compile(r"(\"(?:[^\"\\\n]|\\.)*\")")


def snake(m):
    name = m.group(1)
    return name if name in KEPT else re.sub(r"([a-z0-9])([A-Z])", r"\1_\2", name).lower()


def turn(text):
    return "".join(piece if i % 2 else NAME.sub(snake, piece) for i, piece in enumerate(TEXT.split(text)))


def main():
    changed = 0
    for folder, dirs, files in os.walk(os.path.join(ROOT, "crates")):
        dirs[:] = sorted(d for d in dirs if d not in ("out", "data"))
        for f in sorted(files):
            if f.endswith((".antt", ".edit")):
                path = os.path.join(folder, f)
                with open(path, encoding="utf-8") as opened:
                    text = opened.read()
                new = "\n".join(turn(line) if not line.lstrip().startswith("--") else line for line in text.split("\n"))
                if new != text:
                    changed += 1
                    with open(path, "w", encoding="utf-8") as opened:
                        opened.write(new)
    print(f"respell_rest: {changed} files")


if __name__ == "__main__":
    main()
