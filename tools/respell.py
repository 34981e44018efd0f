#!/usr/bin/env python3
"""Brings the repository's own definitions, lemmas and fields to one spelling: words in snake case.

usage: python3 tools/respell.py [--check] [--table FILE]

Run it at the top, once, right after the kit's port.py. It collects every name that a file of specs/ or proofs/ declares in lower camel
case or with a dash, and writes it in snake case wherever it stands: in specs/, proofs/, in clauses and `ghost use` items of src/, and in
comments. Types, modules and variants keep their capitals; functions of src/, strings, inputs and outputs are not touched. Where two of
a repository's names would fall together the second, a lemma, ends in _lem. --check writes nothing and lists names
that fall together. --table writes the table of names, old and new.
"""
import collections
import os
import re
import sys

WORD = r"[^\s(){}.;,@\"«»\[\]`|]+"
TOKEN = re.compile(WORD)


def snake(name):
    s = re.sub(r"(?<=[a-z0-9'])([A-Z])", lambda m: "_" + m.group(1).lower(), name)
    return re.sub(r"(?<=[A-Za-z0-9'₀-₉])-(?=[A-Za-z0-9])", "_", s)


def files(root, ends):
    for folder, dirs, names in os.walk(os.path.join(root, "crates")):
        dirs[:] = sorted(d for d in dirs if d not in ("out", ".git"))
        for n in sorted(names):
            if n.endswith(ends):
                yield os.path.join(folder, n)


HEAD = re.compile(r"^(?:unfoldable |abbrev |opaque |pub |data |record |postulate )*(" + WORD + r")(?: \([^)]*\)| \{[^}]*\})* :(?= |\n|$)")
FIELD = re.compile(r"^  +(?:pub )?((?:" + WORD + r" )*" + WORD + r") :(?= |\n|$)")


def declared(text, proof):
    """The names that a file declares: at the margin, and the fields and constructors of its records and data."""
    out, fields = [], []
    inside = False
    for line in text.split("\n"):
        m = HEAD.match(line)
        if line and not line[0].isspace():
            inside = bool(re.match(r"(?:pub )?(?:unfoldable |abbrev |pub )*(?:record|data)\b.*\bwhere\s*$|.*\bwhere\s*$", line))
            if m:
                out.append(m.group(1))
        elif inside and not proof:
            f = FIELD.match(line)
            if f:
                fields += f.group(1).split()
    return out, fields


def wanted(name):
    return bool(re.fullmatch(r"[a-z][A-Za-z0-9_'₀-₉-]*", name)) and (re.search(r"[a-z0-9'][A-Z]", name) or "-" in name)


def split_comment(line, mark):
    i = line.find(mark)
    return (line, "") if i < 0 else (line[:i], line[i:])


def turn_line(line, table, dotted=None):
    """A line with the new names. In a proof by steps a name with a dash behind a dot is a step of the code, unless it is in dotted."""
    def one(m):
        w = m.group(0)
        if w not in table:
            return w
        if dotted is not None and "-" in w and w not in dotted and m.start() and line[m.start() - 1] == ".":
            return w
        return table[w]

    return TOKEN.sub(one, line)


def turn_antt(text, table, dotted):
    out = []
    for line in text.split("\n"):
        code, note = split_comment(line, "--")
        if code and not code[-1].isspace():
            code, note = line, ""
        out.append(turn_line(code, table, dotted) + turn_note(note, table))
    return "\n".join(out)


def turn_note(note, table):
    return TOKEN.sub(lambda m: table[m.group(0)] if m.group(0) in table and re.search(r"[a-z][A-Z]", m.group(0)) else m.group(0), note)


CLAUSE = re.compile(r"\b(?:requires|ensures|invariant)\s*\*?\s*(?:\w+\s*)?\{|\bghost\s*(?:\w+\s*(?::\s*)?)?\{")


def clauses(text):
    """Where clauses and `ghost use` items of a source stand."""
    spans = [(m.start(), m.end()) for m in re.finditer(r"ghost use [^;]*;", text)]
    for m in CLAUSE.finditer(text):
        k, depth = m.end(), 1
        while k < len(text) and depth:
            depth += {"{": 1, "}": -1}.get(text[k], 0)
            k += 1
        spans.append((m.end(), k))
    return sorted(spans)


def turn_rt(text, table):
    out, at = [], 0
    for a, b in clauses(text):
        if a < at:
            continue
        out.append("\n".join(rest_line(l, table) for l in text[at:a].split("\n")))
        out.append("\n".join(turn_line(l, table) for l in text[a:b].split("\n")))
        at = b
    out.append("\n".join(rest_line(l, table) for l in text[at:].split("\n")))
    return "".join(out)


def rest_line(line, table):
    code, note = split_comment(line, "//")
    return code + turn_note(note, table)


USE = re.compile(r"^(?:pub |ghost )*use ([^\s{;]+?)(?:\.\{([^}]*)\})?(?: as [^\s;]+)?;?$", re.M)


def foreign(text, own):
    """The names that a file has from the kit's libraries, which keep their spelling there."""
    out = set()
    for m in USE.finditer(text):
        head = m.group(1).split(".")
        if not (head[0] == "Rattle" and len(head) > 1 and head[1] in own):
            out |= {w.strip().split(" as ")[0].strip() for w in (m.group(2) or "").split(",")}
    return out


def tokens_of(path):
    with open(path, encoding="utf-8") as f:
        return TOKEN.findall("\n".join(split_comment(l, "--")[0] for l in f.read().split("\n")))


def main(argv):
    root = os.getcwd()
    check = "--check" in argv
    names, labels = set(), set()
    for p in files(root, ".antt"):
        with open(p, encoding="utf-8") as f:
            text = f.read()
        proof = os.path.basename(p) == "Proof.antt"
        top, fields = declared(text, proof)
        labels |= set(fields)
        for n in top + fields:
            if proof and not n.endswith("-spec"):
                continue
            if wanted(n):
                names.add(n)
    table = {n: snake(n) for n in sorted(names) if snake(n) != n}
    # Where two names of one file would read alike, the one in camel case, or else the one that reads so already, keeps the name; a lemma
    # beside it ends in _lem.
    back = collections.defaultdict(set)
    for a, b in table.items():
        back[b].add(a)
    for p in files(root, ".antt"):
        if os.path.basename(p) == "Proof.antt":
            continue
        seen = set(tokens_of(p))
        for b, group in back.items():
            here = (group | {b}) & seen
            if len(here) > 1:
                first = sorted(here, key=lambda n: (not re.search(r"[a-z][A-Z]", n), "-" in n))[0]
                for n in here - {first}:
                    table[n] = b + "_lem"
    if "--table" in argv:
        with open(argv[argv.index("--table") + 1], "w", encoding="utf-8") as f:
            f.writelines(f"{a}\t{b}\n" for a, b in sorted(table.items()))
    back = collections.defaultdict(set)
    for a, b in table.items():
        back[b].add(a)
    own = {c for c in os.listdir(os.path.join(root, "crates"))}
    whole = table
    turned = 0
    for p in list(files(root, ".antt")) + list(files(root, ".rt")):
        with open(p, encoding="utf-8") as f:
            text = f.read()
        kept = foreign(text, own)
        table = {a: b for a, b in whole.items() if a not in kept}
        if p.endswith(".antt"):
            new = turn_antt(text, table, labels if os.path.basename(p) == "Proof.antt" else None)
            seen = set(TOKEN.findall("\n".join(split_comment(l, "--")[0] for l in text.split("\n"))))
        else:
            new = turn_rt(text, table)
            seen = set(TOKEN.findall(" ".join(text[a:b] for a, b in clauses(text)))) | {m for m in re.findall(r"\b(\w+)\s*:", text)}
        if check:
            for w in sorted(seen & set(table)):
                others = (back[table[w]] | {table[w]}) - {w}
                for o in sorted(others & seen):
                    print(f"{os.path.relpath(p, root)}: {w} and {o} both read {table[w]}")
        elif new != text:
            turned += 1
            with open(p, "w", encoding="utf-8") as f:
                f.write(new)
    print(f"respell: {len(table)} names, {turned} files")
    return 0


if __name__ == "__main__":
    raise SystemExit(main(sys.argv[1:]))
