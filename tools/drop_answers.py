#!/usr/bin/env python3
"""Drops answers that the check finds alone: `tools/drop_answers.py CRATE ..` at the top. It takes all answers of a crate's proofs away, checks
with --margin and without, and puts back those whose goals stay open, until both checks pass. Unused imports are left to `rt tidy`."""
import glob
import os
import re
import subprocess
import sys

ANSWER = re.compile(r"(?m)^pub ([\w+-]+) : goal\.([\w+-]+)\n")


def answer_of(paragraph):
    """The goal that a paragraph answers, where it is nothing but that answer."""
    found = ANSWER.search(paragraph)
    alone = found and not re.search(r"(?m)^(\s*--|[a-z_][\w-]* :)", paragraph)
    return found.group(1) if alone and len(ANSWER.findall(paragraph)) == 1 else None


def check(crate, margin):
    """Whether a crate is proved; else its functions with the goals that are open, and the files with an error."""
    run = subprocess.run(["rt", "check"] + ["--margin"] * margin, cwd=f"crates/{crate}", capture_output=True, text=True)
    said = run.stdout + run.stderr
    open_goals = {}
    for found in re.finditer(r"(?m)^fn (\S+): (?:no proof|not proved|depends)(.*)$", said):
        named = re.search(r"did not prove ((?:`[^`]+`(?:, | and )?)+)", found.group(2))
        goals = re.findall(r"`([^`]+)`", named.group(1)) if named else re.findall(r"\(`([\w+-]+)`\)", said)
        open_goals.setdefault(found.group(1).split("::")[-1], set()).update(goals)
    return run.returncode == 0, open_goals, re.findall(r"(?m)^\./proofs/([^/]+)/[^:]+:\d+:\d+: error", said)


def write(files, dropped):
    for path, paragraphs in files.items():
        kept = [p for i, p in enumerate(paragraphs) if i not in dropped[path]]
        if any(re.search(r"(?m)^pub ", p) for p in kept):
            os.makedirs(os.path.dirname(path), exist_ok=True)
            open(path, "w").write("\n".join(kept).rstrip("\n") + "\n")
        elif os.path.exists(path):
            os.remove(path)


def put_back(files, dropped, open_goals, errors, whole):
    """Takes answers of the functions that are not proved off the list; those of their open goals, or all. Answers how many."""
    before = sum(map(len, dropped.values()))
    for path, paragraphs in files.items():
        folder = path.split("/")[-2]
        goals = open_goals.get(re.split(r"[.+-]", folder)[-1], open_goals.get(folder.lstrip("+")))
        if goals is None and folder not in errors:
            continue
        hit = {i for i in dropped[path] if any((answer_of(paragraphs[i]) + "-").startswith(g + "-") or (g + "-").startswith(answer_of(paragraphs[i]) + "-") for g in goals or ())}
        dropped[path] -= hit if hit and not whole and folder not in errors else set(dropped[path])
    return before - sum(map(len, dropped.values()))


for crate in sys.argv[1:]:
    files = {p: re.split(r"\n(?=\n)", open(p).read()) for p in glob.glob(f"crates/{crate}/proofs/*/Answers.antt")}
    dropped = {p: {i for i, x in enumerate(v) if answer_of(x)} for p, v in files.items()}
    every = sum(map(len, dropped.values()))
    for turn in range(12):
        write(files, dropped)
        proved, open_goals, errors = check(crate, True)
        if proved:
            proved, open_goals, errors = check(crate, False)
        if proved or not put_back(files, dropped, open_goals, errors, turn > 6):
            break
    if not proved:
        write(files, {p: set() for p in files})
    print(f"{crate}: {sum(map(len, dropped.values())) if proved else 0} of {every} answers are dropped")
