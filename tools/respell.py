#!/usr/bin/env python3
"""Gives the repository's own definitions and lemmas the spelling of today's Rattle: words in snake case.

usage: python3 tools/respell.py        at the top of the repository, once, after /opt/rattle/port/port.py

It turns names that begin with a small letter and have capitals within (camel case), and the
names of lemmas that are joined by hyphens, wherever they are defined in specs/ or in lemma files of
proofs/. Functions of src/, types, modules and facts keep their names, and so do the names that the
toolchain makes for goals and steps (they stand in answer files, or behind a dot). It says which
new names were there before, so that two names that fall together are seen.
"""

import os
import re
import sys

NAME = re.compile(r"(?<![\w'\-.])[^\W\d][\w']*(?:-[\w']+)*")
CAMEL = re.compile(r"(?<![\w'\-])[a-z][a-z0-9]*(?:_[a-z0-9]+)*(?:[A-Z][a-z0-9]*)+'*(?![\w'\-])")
HEAD = re.compile(r"^\s*(?:abbrev |unfoldable )?(?:pub )?(?:record |data )?([^\W\d][\w']*(?:-[\w']+)*) :")
# lemmas whose new names would be those of definitions that stand beside them
APART = {"flat_back": "returned_byte", "split_rest": "put_rest", "word-at": "word_read", "run_call": "run_call_paired", "step_call": "step_call_paired", "entry-sound": "entry_set_sound", "overlaid-all": "overlaid_whole", "legal-words": "legal_count"}
LOCAL = ("Answers.antt", "Invariants.antt", "Proof.antt")


def files(root):
    for folder, dirs, names in os.walk(os.path.join(root, "crates")):
        dirs[:] = sorted(d for d in dirs if d != "out")
        for name in sorted(names):
            if name.endswith((".antt", ".rt", ".edit")):
                yield os.path.join(folder, name)


def snake(name):
    return re.sub(r"(?<=[a-z0-9_])([A-Z])", lambda m: "_" + m.group(1).lower(), name).replace("__", "_")


def text_of(path):
    with open(path, encoding="utf-8") as f:
        return f.read()


def main():
    root = sys.argv[1] if len(sys.argv) > 1 else "."
    camel, hyphened, taken = {}, {}, set()
    for path in files(root):
        if not path.endswith(".antt"):
            continue
        generated = os.path.basename(path) in LOCAL
        for line in text_of(path).split("\n"):
            head = HEAD.match(line)
            if not head:
                continue
            name = head.group(1)
            if CAMEL.fullmatch(name):
                camel[name] = snake(name)
            elif "-" in name and not generated and name not in APART:
                hyphened[name] = name.replace("-", "_")
            else:
                taken.add(name)
    made = list(camel.values()) + list(hyphened.values())
    for old, new in sorted({**camel, **hyphened}.items()):
        if new in taken or made.count(new) > 1:
            print(f"look: {old} becomes {new}, and another name is or becomes that too")
    changed = 0
    for path in files(root):
        before = text_of(path)
        after = before
        if path.endswith(".antt"):
            after = NAME.sub(lambda m: APART.get(m.group(0), m.group(0)), after)
        after = CAMEL.sub(lambda m: camel.get(m.group(0), m.group(0)), after)
        if path.endswith(".antt"):
            after = NAME.sub(lambda m: hyphened.get(m.group(0), m.group(0)), after)
        if after != before:
            with open(path, "w", encoding="utf-8") as f:
                f.write(after)
            changed += 1
    print(f"respell: {len(camel)} names in camel case, {len(hyphened)} with hyphens, {changed} files")


if __name__ == "__main__":
    main()
