#!/usr/bin/env python3
"""Spells the definitions, lemmas, fields and local names of this repository's proofs and specifications in snake case, and
those that begin with a capital in camel case: `step-if` becomes `step_if`, `Lowest-loop` becomes `LowestLoop`.

usage: python3 tools/respell_names.py [FOLDER]     FOLDER is a checkout; by default the one that this script lies in

It turns whole words of the code of .antt files, and of the clauses and ghost items of .rt files; in comments only what stands
in backquotes. Names that Rattle makes stay: goals, and the steps behind `c.`, `l.`, `w.` and the like. So does a name in a
file that imports it from a library. A name whose new spelling is taken stays everywhere and is told on a line 'taken:'.
"""

import os
import re
import sys

WORD = re.compile(r"[^\s(){}.;,@\"«»:]+")
NAME = re.compile(r"^[A-Za-z][A-Za-z0-9_']*(?:-[A-Za-z0-9_']+)+$")
DECLARED = re.compile(r"^\s*(?:(?:abbrev|unfoldable|pub)\s+)*(\S+)((?:\s+\{[^{}]*\}|\s+\([^()]*\))*)\s+:\s(.*)$")
HEADED = re.compile(r"^\s*(?:pub\s+)?(?:record|data)\s+(\S+)")
LOCAL = re.compile(r"(?:\b(?:let|as)\s+|λ\s*\(?|[({]\s*)([A-Za-z][^\s(){}.;,@\"«»:=]*)")
USE = re.compile(r"\buse\s+(Rattle\.(\w+)|\w+)([^;{\n]*)(?:\{([^}]*)\})?")
CLAUSE = re.compile(r"\b(?:(?:requires|ensures)\s*\*?\s*(?:\w+\s*)?\{|ghost\s+(?:\w+\s*[:=]\s*|)\{|ghost\s+(?:use|invariant)\b)")
HEADS = ("c", "l", "w", "goal", "args", "fn", "initial", "new", "auto", "ranges", "type_inv")


def files(top):
    for folder, inner, names in os.walk(os.path.join(top, "crates")):
        inner[:] = sorted(d for d in inner if d != "out")
        for name in sorted(names):
            if name.endswith((".antt", ".rt")):
                yield os.path.join(folder, name)


def split_comments(text):
    """Pieces of an .antt text: (is it code, the piece)."""
    at = 0
    for m in re.finditer(r"(?<!\S)--[^\n]*|\{-.*?-\}", text, re.S):
        yield True, text[at:m.start()]
        yield False, m.group()
        at = m.end()
    yield True, text[at:]


def code_of(text):
    return "".join(piece for is_code, piece in split_comments(text) if is_code)


def imported(text, own):
    """The names that a text imports from a library, that is, from no crate of the repository."""
    found = set()
    for m in USE.finditer(text):
        if m.group(2) not in own and m.group(4):
            found.update(item.split()[0] for item in m.group(4).split(",") if item.strip())
    return found


def declared(text):
    for line in code_of(text).splitlines():
        m = DECLARED.match(line)
        if m and not m.group(3).startswith(("goal.", "given.")):
            # several fields may share a type
            yield m.group(1)
            for name in line.split(" : ")[0].split():
                yield name
        m = HEADED.match(line)
        if m:
            yield m.group(1)
        for m in LOCAL.finditer(line):
            yield m.group(1)


def standing(text):
    """The words of a text that are no field, no part of a path and no file of proofs."""
    text = re.sub(r"^use [^{\n]*", "", text, flags=re.M)
    return {m.group() for m in WORD.finditer(text) if text[m.start() - 1:m.start()] != "."}


def respelled(name):
    if name[0].isupper():
        return "".join(p[:1].upper() + p[1:] for p in name.split("-"))
    return name.replace("-", "_")


def turn_code(text, table, skip):
    out, at = [], 0
    for m in WORD.finditer(text):
        name = m.group()
        out.append(text[at:m.start()])
        at = m.end()
        if name in table and name not in skip and not made(text, m.start()):
            name = table[name]
        out.append(name)
    out.append(text[at:])
    return "".join(out)


def made(text, start):
    """Whether the word here stands right behind a head such as `c.`: a name that Rattle makes."""
    m = re.search(r"(?<![\w.'-])(\w+)\.$", text[:start][-40:])
    return bool(m) and m.group(1) in HEADS


def turn_spans(text, table):
    return re.sub(r"`[^`\n]*`", lambda m: turn_code(m.group(), table, ()), text)


def turn_antt(text, table, skip):
    return "".join(turn_code(p, table, skip) if is_code else turn_spans(p, table) for is_code, p in split_comments(text))


def closing(text, start):
    depth = 0
    for i in range(start, len(text)):
        depth += {"{": 1, "}": -1}.get(text[i], 0)
        if depth == 0 and text[i] == "}":
            return i + 1
    return len(text)


def turn_rt(text, table, skip):
    out, at = [], 0
    for m in CLAUSE.finditer(text):
        if m.start() < at:
            continue
        end = closing(text, m.end() - 1) if m.group().endswith("{") else text.find(";", m.end()) + 1
        out.append(turn_comments(text[at:m.start()], table))
        out.append(turn_code(text[m.start():end], table, skip))
        at = end
    out.append(turn_comments(text[at:], table))
    return "".join(out)


def turn_comments(text, table):
    return re.sub(r"//[^\n]*", lambda m: turn_spans(m.group(), table), text)


def main(top):
    own = set(os.listdir(os.path.join(top, "crates")))
    texts = {}
    for path in files(top):
        with open(path, encoding="utf-8") as f:
            texts[path] = f.read()
    names = {n for p, t in texts.items() if p.endswith(".antt") for n in declared(t) if NAME.match(n)}
    table = {n: respelled(n) for n in names}
    words = {p: standing(code_of(t)) for p, t in texts.items() if p.endswith(".antt")}
    for name, new in sorted(table.items()):
        if any(new in w and name in w for w in words.values()) or list(table.values()).count(new) > 1:
            print(f"taken: {name} would be {new}")
            del table[name]
        elif any(new in w for w in words.values()):
            print(f"look: {new} stands elsewhere already, apart from {name}")
    for path, text in texts.items():
        turn = turn_antt if path.endswith(".antt") else turn_rt
        new = turn(text, table, imported(text, own))
        if new != text:
            with open(path, "w", encoding="utf-8") as f:
                f.write(new)
    print(f"{len(table)} names")
    return table


if __name__ == "__main__":
    main(sys.argv[1] if len(sys.argv) > 1 else os.path.join(os.path.dirname(os.path.abspath(__file__)), ".."))
