#!/usr/bin/env python3
"""Brings the pages and comments to the spelling that the repository's definitions, lemmas and fields have today.

usage: python3 tools/respell_pages.py [--check] [--table FILE]

Run it at the top, after the commit in which the spelling of crates/ turned. docs/PORT.md's first two lines are commits: the last one in the
older spelling, and that in which it turned. Each .antt file declares the same things in both, in the same order; so each name that a file
declares at the margin or inside, its fields and constructors too, is paired with what stands at its place later, and a file whose counts
differ ends the run. Where the two differ the later name is written for the earlier one: in code spans and fenced blocks of the pages (*.md),
in comments of .rt and .antt files, and in comments of include/, tests/ and examples/. In comments a name with a dash turns only between
backticks, and elsewhere only one in camel case does, since plain words may have dashes too. Functions of src/, files, strings, inputs and
outputs are not touched; of a proof by steps (Proof.antt) only the name of the proof is taken, since its other names are those of goals.
docs/PORT.md stays as it is. --check writes nothing and prints the lines that would change. --table writes the table of names, old and new.
"""
import collections
import os
import re
import subprocess
import sys

WORD = r"[^\s(){}.;,@\"«»\[\]`|/:]+"
TOKEN = re.compile(WORD)
NAME = r"[^\s(){}.;,@\"«»\[\]`|]+"
DECLARED = re.compile(r"^\s*(?:(?:unfoldable|abbrev|opaque|pub|data|record|postulate) )*((?:" + NAME + r" )*?" + NAME + r")(?: \((?:[^()]|\([^()]*\))*\)| \{[^}]*\})* :(?= |\n|$)")
CAMEL = re.compile(r"[a-z0-9'′][A-Z]")


def git(*words):
    return subprocess.run(["git", *words], capture_output=True, text=True, check=True).stdout


def declared(text):
    """The names before each `:` of a file, line by line."""
    out = []
    for line in text.split("\n"):
        m = None if line.lstrip().startswith("--") else DECLARED.match(line)
        if m:
            out.append(m.group(1).split())
    return out


def pairs(before, after):
    """The table of names, old and new, of all .antt files of two commits."""
    table = collections.defaultdict(set)
    files = [f for f in git("ls-tree", "-r", "--name-only", before, "--", "crates").split("\n") if f.endswith(".antt")]
    wrong = 0
    for f in files:
        a, b = declared(git("show", f"{before}:{f}")), declared(git("show", f"{after}:{f}"))
        if [len(x) for x in a] != [len(x) for x in b]:
            wrong += 1
            print(f"{f}: what it declares differs in number: {len(a)} lines and {len(b)}")
            continue
        proof = os.path.basename(f) == "Proof.antt"
        for x, y in zip(sum(a, []), sum(b, [])):
            if x != y and not (proof and not x.endswith("-spec")):
                table[x].add(y)
    for x, ys in sorted(table.items()):
        if len(ys) > 1:
            wrong += 1
            print(f"{x} has two new names: {' '.join(sorted(ys))}")
    if wrong:
        raise SystemExit(2)
    return {x: ys.pop() for x, ys in table.items()}


def turn(text, table):
    return TOKEN.sub(lambda m: table.get(m.group(0), m.group(0)), text)


FENCE = re.compile(r"^ *```[^\n]*\n.*?^ *```[^\n]*$", re.M | re.S)
SPAN = re.compile(r"(?<!`)(`+)(?!`)((?:(?!\n\s*\n).)+?)(?<!`)\1(?!`)", re.S)


def turn_spans(text, table):
    return SPAN.sub(lambda m: m.group(1) + turn(m.group(2), table) + m.group(1), text)


def turn_page(text, table):
    """A page with the new names in its code spans and fenced blocks."""
    out, at = [], 0
    for m in FENCE.finditer(text):
        out += [turn_spans(text[at:m.start()], table), turn(m.group(0), table)]
        at = m.end()
    return "".join(out + [turn_spans(text[at:], table)])


def turn_note(note, table):
    """A comment: names between backticks, and names in camel case wherever they stand."""
    camel = {a: b for a, b in table.items() if CAMEL.search(a)}
    return turn(turn_spans(note, table), camel)


STRING = r'b?"(?:[^"\\]|\\.)*"'
NOTES = {
    ".rt": re.compile(STRING + r"|(//[^\n]*(?:\n\s*//[^\n]*)*)"),
    ".antt": re.compile(r'"(?:[^"\\]|\\.)*"|((?:^|(?<=\s))--[^\n]*(?:\n\s*--[^\n]*)*)', re.M),
    ".c": re.compile(STRING + r"|(//[^\n]*|/\*.*?\*/)", re.S),
    ".ir": re.compile(r'"(?:[^"\\]|\\.)*"|(;[^\n]*)'),
    "": re.compile(r"((?:^|(?<=\s))#[^\n]*)", re.M),
}
NOTES[".h"] = NOTES[".c"]


def turn_notes(text, table, form):
    return form.sub(lambda m: turn_note(m.group(1), table) if m.group(1) else m.group(0), text)


def pages():
    for folder, dirs, names in os.walk("."):
        dirs[:] = sorted(d for d in dirs if d not in ("out", "target", ".git"))
        for n in sorted(names):
            path = os.path.relpath(os.path.join(folder, n))
            top = path.split(os.sep)[0]
            end = os.path.splitext(n)[1]
            if n.endswith(".md") and path != os.path.join("docs", "PORT.md"):
                yield path, turn_page
            elif top == "crates" and end in (".rt", ".antt"):
                yield path, lambda t, table, form=NOTES[end]: turn_notes(t, table, form)
            elif top in ("include", "tests", "examples") and end in NOTES:
                yield path, lambda t, table, form=NOTES[end]: turn_notes(t, table, form)


def main(argv):
    with open(os.path.join("docs", "PORT.md"), encoding="utf-8") as f:
        before, after = f.read().split("\n")[:2]
    table = pairs(before, after)
    if "--table" in argv:
        with open(argv[argv.index("--table") + 1], "w", encoding="utf-8") as f:
            f.writelines(f"{a}\t{b}\n" for a, b in sorted(table.items()))
    turned = 0
    for path, way in pages():
        with open(path, encoding="utf-8") as f:
            text = f.read()
        new = way(text, table)
        if new == text:
            continue
        turned += 1
        if "--check" in argv:
            for n, (a, b) in enumerate(zip(text.split("\n"), new.split("\n")), 1):
                if a != b:
                    print(f"{path}:{n}: {b.strip()}")
        else:
            with open(path, "w", encoding="utf-8") as f:
                f.write(new)
    print(f"respell_pages: {len(table)} names, {turned} files")
    return 0


if __name__ == "__main__":
    raise SystemExit(main(sys.argv[1:]))
