#!/usr/bin/env python3
"""Spells the repository's own definitions and lemmas as Rattle's library does: words in snake case, types in camel case.

usage: python3 tools/respell.py [--say]      at the top of the repository, once, right after the kit's port.py

port.py turns the library's names and some of the repository's. This script turns the rest: every name that a file of specs/ or proofs/
declares, wherever it stands in specs/, proofs/, clauses and must-fail edits. In a function's own proof file only the names that it
imports turn. It also turns the old forms in must-fail edits, which port.py leaves. --say lists the names and changes nothing.
"""
import collections
import os
import re
import sys

NAME = r'[^\s(){}.;,@"«»]+'
WORD = re.compile(NAME)
DECLARED = re.compile(r'^\s*(?:(?:abbrev|unfoldable|pub)\s+)*(?!(?:use|module|where|let|record|data|in|infixl|infixr|infix)(?=\s))([^\s(){}.;,@"«»:]+)\s+(?:\{[^{}\n]*\}\s*)*:\s')
RECORD = re.compile(r"^\s*(?:pub\s+)?(?:record|data)\s+(" + NAME + ")")
OPERATOR = re.compile("◌")
# Names that would fall together with another, or read badly.
CHOSEN = {}


def respelled(name):
    if name in CHOSEN:
        return CHOSEN[name]
    if OPERATOR.search(name) or len(name) == 1:
        return name
    if name[0].isupper() and len(name) > 1:
        if "-" in name:
            if re.fullmatch(r"[A-Z]-\w+", name):
                return name[0].lower() + "_" + name[2:].replace("-", "_")
            return "".join(w[:1].upper() + w[1:] for w in name.split("-"))
        return name
    new = name.replace("→", "_to_").replace("-", "_")
    new = re.sub(r"(?<=[a-z0-9])([A-Z])", lambda m: "_" + m[1].lower(), new)
    return new


def of_edit(text, own, known):
    """An edit's text: port.py did not turn it, so names that it turned elsewhere turn here."""

    def one(m):
        new = own.get(m[0]) or respelled(m[0])
        return new if m[0] in own or new in known else m[0]

    return WORD.sub(one, text)


def of_function(path):
    parts = path.split("/")
    return len(parts) > 4 and parts[2] == "proofs"


def files(*endings):
    for folder, dirs, names in os.walk("crates"):
        dirs[:] = sorted(d for d in dirs if d not in ("out", "data"))
        for n in sorted(names):
            if n.endswith(endings):
                yield os.path.join(folder, n)


def read(path):
    with open(path, encoding="utf-8") as f:
        return f.read()


def names():
    """The names that turn, each with its new spelling. A lemma that would fall together with a definition says that it is a law."""
    kinds = collections.defaultdict(set)
    for path in files(".antt"):
        if of_function(path):
            continue
        for line in read(path).splitlines():
            m = DECLARED.match(line)
            if m:
                told = re.match(r"\s*(?:pub\s+)?(?:abbrev|unfoldable)\b", line) or re.search(r"[a-z0-9][A-Z]", m[1])
                kinds[m[1]].add("definition" if told else "lemma")
            m = RECORD.match(line)
            if m:
                kinds[m[1]].add("definition")
    meant = {respelled(n) for n, k in kinds.items() if "definition" in k}
    own = {}
    for n, k in kinds.items():
        new = respelled(n)
        if k == {"lemma"} and new in meant:
            new += "_law"
        if new != n:
            own[n] = new
    return own


def is_plain(word):
    return re.fullmatch(r"[a-z0-9_]+", word)


def turn(text, table, behind_dots=True):
    """Each word of the table, also in comments; behind a dot only if asked. A plain word before a dot names a module, and stays."""

    def one(m):
        word = m[0]
        if is_plain(word) and text[m.end() : m.end() + 1] in (".", "("):
            return word
        dotted = m.start() > 0 and text[m.start() - 1] == "."
        if word in table and (behind_dots or not dotted):
            return table[word]
        # prose: a colon or quotes that touch the word
        bare = word.strip("`:'")
        if bare != word and bare in table and (behind_dots or not dotted):
            return word.replace(bare, table[bare])
        return word

    return WORD.sub(one, text)


def of_library(path):
    return not path.startswith("Rattle.") or path.split(".")[1] in ("std", "core", "io", "libc", "os", "check")


def imported(text, among=lambda path: not of_library(path)):
    found = set()
    for m in re.finditer(r"^(?:ghost )?use ([^\s{]+)\.\{([^}]*)\}", text, re.M):
        if among(m[1]):
            found.update(w.strip() for item in m[2].split(",") for w in item.split(" as "))
    return found


def old_forms(line):
    """An edit's text in today's spelling: clauses without brackets, projections written tight."""
    line = re.sub(r"λ r\. ⌜ (.*) ⌝", lambda m: re.sub(r"(?<![\w'-])r(?![\w'-])", "result", m[1]), line)
    line = re.sub(r"⌜ \((.*)\) ⌝(?=\s*})", r"\1", line)
    line = re.sub(r"⌜ (.*?) ⌝", r"\1", line)
    line = re.sub(r"\(now \((\w+) \.entry\)\)", r"\1.now", line)
    line = re.sub(r"now \((\w+) \.entry\)", r"\1.now", line)
    for _ in range(4):
        line = re.sub(r"\((" + NAME + r"(?:\." + NAME + r")*) \.(" + NAME + r")\)", r"\1.\2", line)
        line = re.sub(r"\((" + NAME + r"(?:\." + NAME + r")*) \.(" + NAME + r") \.", r"(\1.\2 .", line)
    line = re.sub(r"(?<=[\w'\)]) \.(\w)", r".\1", line)
    line = re.sub(r"(?<![\w◌])_([+≡<≤∷*^/-]|\+\+)_(?!\w)", r"◌\1◌", line)
    return line


def main():
    own = names()
    if "--say" in sys.argv:
        for a, b in sorted(own.items()):
            print(a, b)
        back = collections.defaultdict(set)
        for a, b in own.items():
            back[b].add(a)
        for b, many in back.items():
            if len(many) > 1:
                print("TOGETHER", b, sorted(many))
        for path in files(".antt", ".rt"):
            text = read(path)
            if path.endswith(".rt"):
                code = text
            else:
                code = re.sub(r"--[^\n]*", "", text)
            words = set(m[0] for m in WORD.finditer(code) if code[m.start() - 1 : m.start()] != "." and code[m.end() : m.end() + 1] != ".")
            table = {w: own[w] for w in words & set(own)}
            if of_function(path):
                table = {w: n for w, n in table.items() if w in imported(text)}
            for w, n in table.items():
                if n in words or sum(v == n for v in table.values()) > 1:
                    print("MEETS", path, w, n)
        return
    for path in files(".antt", ".rt"):
        text = read(path)
        if of_function(path):
            table = {w: own[w] for w in imported(text) & set(own)}
            new = turn(text, table, False)
        else:
            library = imported(text, of_library)
            table = {w: n for w, n in own.items() if w not in library}
            if path.endswith(".rt"):
                table = {w: n for w, n in table.items() if not is_plain(w)}
            new = turn(text, table)
        if new != text:
            with open(path, "w", encoding="utf-8") as f:
                f.write(new)
    known = set(own.values())
    for path in files(".antt"):
        for line in read(path).splitlines():
            m = DECLARED.match(line) or RECORD.match(line)
            if m:
                known.add(m[1])
    for path in files(".edit"):
        lines = []
        for line in read(path).splitlines(keepends=True):
            if line.startswith(("old:", "new:")):
                line = of_edit(old_forms(line.rstrip("\n")), own, known) + "\n"
            lines.append(line)
        with open(path, "w", encoding="utf-8") as f:
            f.write("".join(lines))


main()
