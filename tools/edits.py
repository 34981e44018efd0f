#!/usr/bin/env python3
"""Lists the must-fail edits whose texts do not stand once where they are looked for.

usage: python3 tools/edits.py [CRATE..]

Each edit of crates/*/must-fail and crates/*/further is applied in thought: every `old:` has to stand exactly once in its file.
"""
import glob
import os
import sys


def pairs(path):
    file, old = None, None
    for line in open(path, encoding="utf-8").read().split("\n"):
        if line.startswith("file: "):
            file = line[6:].strip()
        elif line.startswith("old: "):
            old = line[5:]
        elif line.startswith("new:"):
            yield file, old, line[5:]


bad = 0
for path in sorted(glob.glob("crates/*/must-fail/*.edit") + glob.glob("crates/*/further/*.edit")):
    crate = path.split("/")[1]
    if sys.argv[1:] and crate not in sys.argv[1:]:
        continue
    texts = {}
    for file, old, new in pairs(path):
        at = os.path.join("crates", crate, file)
        text = texts.get(at) or (open(at, encoding="utf-8").read() if os.path.exists(at) else "")
        n = text.count(old)
        if n != 1:
            bad += 1
            print(f"{path}: {n} times in {file}: {old.strip()}")
            break
        texts[at] = text.replace(old, new)
print(f"{bad} edits do not fit")
sys.exit(bool(bad))
