#!/usr/bin/env python3
"""places.py [POINT ..] [--list]: counts the places of each point of docs/DESIGN-PASS.md in the crates' src/ (point 8: proofs/).

The rules go by text, so that they count the same of any commit; --list prints each place.
"""
import collections
import glob
import os
import re
import sys

TOP = os.path.dirname(os.path.dirname(os.path.abspath(__file__)))


def sources():
    for path in sorted(glob.glob(os.path.join(TOP, "crates/*/src/**/*.rt"), recursive=True)):
        yield os.path.relpath(path, TOP), open(path).read()


def blocks(text, head):
    """Each declaration that a line of `head` begins, with its line number, up to the closing brace in the first column."""
    for m in re.finditer(head, text, re.M):
        end = text.find("\n}", m.start())
        yield text.count("\n", 0, m.start()) + 1, m, text[m.start() : end if end >= 0 else len(text)]


def functions():
    """Each function: file, line, name, parameters, clauses, body."""
    for path, text in sources():
        for m in re.finditer(r"^( *)(?:pub(?:\(crate\))? )?fn (\w+)", text, re.M):
            indent = m.group(1)
            end = text.find("\n" + indent + "}\n", m.start())
            whole = text[m.start() : end if end >= 0 else len(text)]
            at = whole.find("\n" + indent + "{\n")
            if at < 0:
                at = whole.find(" {\n")
            head, body = whole[:at], whole[at:]
            params = head[head.find("(") + 1 :]
            depth, k = 1, 0
            while k < len(params) and depth:
                depth += {"(": 1, ")": -1}.get(params[k], 0)
                k += 1
            clauses = re.findall(r"^\s*(requires|ensures)\b[^{]*\{(.*)\}\s*$", head, re.M)
            yield path, text.count("\n", 0, m.start()) + 1, m.group(2), params[: k - 1], clauses, body


def shaped():
    """Own enums of the shape of Option or Result: a value beside nothing, a refusal or a place; a third variant that carries nothing or a token."""
    for path, text in sources():
        for line, m, body in blocks(text, r"^(?:pub )?enum (\w+) \{"):
            variants = re.findall(r"^    (\w+)(\(.*\)| \{.*\})?,$", body, re.M)
            bare = [v for v, held in variants if not held]
            refused = [v for v, held in variants if held == "(Refusal)"]
            two = len(variants) == 2 and (bare or refused or {v for v, _ in variants} & {"Bad", "Full"})
            if (two and len(bare) < 2) or (len(variants) == 3 and refused):
                yield f"{path}:{line}: enum {m.group(1)}"


def flags():
    """Structs with a flag beside a value."""
    for path, text in sources():
        for line, m, body in blocks(text, r"^(?:pub )?struct (\w+)[^;{]*\{"):
            fields = re.findall(r"^    (?:pub(?:\(crate\))? )?(\w+): ([^,]+),$", body, re.M)
            bools = [n for n, t in fields if t == "bool"]
            if bools and len(fields) > 1:
                yield f"{path}:{line}: struct {m.group(1)}: {', '.join(bools)}"


def numbers():
    """Fields and parameters that hold a kind, a sort, an operation, a class, a mode or a refusal's number as a plain number."""
    for path, text in sources():
        for i, l in enumerate(text.split("\n"), 1):
            if re.match(r"\s*(//|ensures|requires|ghost)", l):
                continue
            for m in re.finditer(r"\b(kind|sort|op|mode|number|parts|class)s?: (?:&\[)?u(?:8|16|32)\b", l):
                yield f"{path}:{i}: {m.group(0)}"


KEY = set("as break const continue else enum false fn for if impl in let loop match mut pub ref return self struct true use while Some None Ok Err".split())


def shape(body):
    names = {}

    def word(m):
        w = m.group(0)
        if w in KEY:
            return w
        if re.match(r"\d|0x", w):
            return "0"
        return names.setdefault(w, f"n{len(names)}")

    body = re.sub(r"//.*", "", body)
    return re.sub(r"\s+", " ", re.sub(r"\w+", word, body)).strip()


def twins():
    """Functions of four lines or more whose bodies are the same but for names, types and numbers."""
    groups = collections.defaultdict(list)
    for path, line, name, params, clauses, body in functions():
        if len([l for l in body.split("\n") if l.strip() not in ("", "{", "}")]) >= 4:
            groups[shape(body)].append(f"{path}:{line}: {name}")
    for _, g in sorted(groups.items(), key=lambda x: x[1]):
        if len(g) > 1:
            yield " = ".join(g)


def loops(counted=True):
    """Loops by `while` or `loop` that step their variable by one by hand."""
    for path, text in sources():
        lines = text.split("\n")
        for i, l in enumerate(lines):
            m = re.match(r"^(\s*)(?:while (.*)|loop) \{$", l)
            if not m:
                continue
            j = i + 1
            while j < len(lines) and not lines[j].startswith(m.group(1) + "}"):
                j += 1
            tested = set(re.findall(r"\w+", m.group(2) or ""))
            body = lines[i + 1 : j]
            by_one = any((s := re.match(r"\s*([\w.]+) [+-]= 1;", b)) and s.group(1).split(".")[0] in tested for b in body)
            if by_one == counted:
                yield f"{path}:{i + 1}: {l.strip()}"


def by_hand():
    """Functions that compare, copy, clear or convert by hand, by their names."""
    rule = re.compile(r"^(same|equal|copy|clear|clone|wide|low|high|field|byte_at|word_at|least|between|.*_bytes$|tell_byte|tell_width|job_of|kind_of)")
    for path, line, name, params, clauses, body in functions():
        if rule.match(name):
            yield f"{path}:{line}: {name}"


def facts():
    """Facts that stand in the `requires` of three functions or more, but for the names of parameters."""
    seen = collections.defaultdict(list)
    for path, line, name, params, clauses, body in functions():
        for kind, clause in clauses:
            if kind != "requires":
                continue
            depth, part, parts = 0, "", []
            for c in clause:
                depth += {"(": 1, ")": -1, "{": 1, "}": -1}.get(c, 0)
                if c == "×" and depth == 0:
                    parts.append(part)
                    part = ""
                else:
                    part += c
            for p in parts + [part]:
                p = re.sub(r"\s+", " ", p.strip())
                while p.startswith("(") and p.endswith(")"):
                    p = p[1:-1].strip()
                seen[p].append(f"{path}:{line}: {name}")
    for p, g in sorted(seen.items(), key=lambda x: -len(x[1])):
        if len(g) >= 3:
            yield f"{p}: {len(g)} functions"


def together():
    """Parameters that travel together: three or more with the same names and types in five functions or more."""
    seen = collections.Counter()
    for path, line, name, params, clauses, body in functions():
        ps = [re.sub(r"\s+", " ", p.strip()) for p in params.replace("\n", " ").split(",") if ":" in p]
        for k in range(len(ps) - 2):
            seen[", ".join(ps[k : k + 3])] += 1
    for p, n in seen.most_common():
        if n >= 5:
            yield f"{p}: {n} functions"


def lengths():
    """Slices with a length beside them: a parameter n, count, size or length next to a slice."""
    for path, line, name, params, clauses, body in functions():
        if re.search(r"\w+: &(?:mut )?\[[^\]]*\], (?:n|count|size|length): u", re.sub(r"\s+", " ", params)):
            yield f"{path}:{line}: {name}"


def switches():
    """A step or a job chosen by a number or by a table of functions: pointers to functions, `match` on a job, and `if` chains on a kind."""
    for path, text in sources():
        for i, l in enumerate(text.split("\n"), 1):
            if re.search(r": fn\(|\bmatch (job|kind|sort|step|mode)\b", l):
                yield f"{path}:{i}: {l.strip()}"
    for path, line, name, params, clauses, body in functions():
        if len(re.findall(r"\bif (?:kind|sort|op|mode|job)\b [=<>]", body)) >= 3:
            yield f"{path}:{line}: {name}"


def answers(only_search=False):
    """Answers to goals; with only_search those that only say `search`."""
    for path in sorted(glob.glob(os.path.join(TOP, "crates/*/proofs/**/Answers.antt"), recursive=True)):
        text = open(path).read()
        for m in re.finditer(r"^pub ([\w+-]+) : goal\.", text, re.M):
            a = re.search(r"^" + re.escape(m.group(1)) + r" c = (.*)$", text, re.M)
            if not only_search or (a and a.group(1).startswith("search")):
                yield f"{os.path.relpath(path, TOP)}: {m.group(1)}"


POINTS = {
    "1a": shaped,
    "1b": flags,
    "1c": numbers,
    "2": twins,
    "3": loops,
    "3b": lambda: loops(False),
    "4": by_hand,
    "5a": facts,
    "5b": together,
    "6": lengths,
    "7": switches,
    "8a": answers,
    "8b": lambda: answers(True),
}
SAYS = {
    "1a": "own enums of the shape of Option or Result",
    "1b": "flags with a value beside them",
    "1c": "numbers for kinds, sorts or refusals",
    "2": "groups of twin functions",
    "3": "loops that count by hand",
    "3b": "other loops by while",
    "4": "comparing, copying, converting by hand",
    "5a": "facts in three requires or more",
    "5b": "parameters that travel together",
    "6": "slices with a length beside them",
    "7": "switches on steps, tables of functions",
    "8a": "answers to goals",
    "8b": "answers that only say search",
}


def main():
    words = [w for w in sys.argv[1:] if not w.startswith("-")]
    for p, rule in POINTS.items():
        if words and p not in words:
            continue
        found = list(rule())
        print(f"{p:3} {len(found):5}  {SAYS[p]}")
        if "--list" in sys.argv:
            for f in found:
                print("       " + f)


main()
