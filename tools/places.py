#!/usr/bin/env python3
"""Counts the places of docs/DESIGN-PASS.md in src/: python3 tools/places.py [COMMIT] (none: the working tree). With -v each place is printed.

1   own enums, and flags that stand beside the value which they are about
2   runs of six or more lines that two places share are not counted here
3   loops that count by hand: while, loop
4   small functions whose whole body converts, compares or copies: one line of 'as', '==', '<', '+ 1', a test for 0
5   facts that stand in the requires of three or more functions of a crate, and parameters (three or more) that three or more functions share
6   a buffer with a length or a place beside it among the parameters
7   enums that only say which step to run, with the match over them; function pointers
8   files of proofs/ that answer for functions, and the functions"""
import re, subprocess, sys
from collections import defaultdict

words = [w for w in sys.argv[1:] if w != "-v"]
loud = "-v" in sys.argv
commit = words[0] if words else None


def run(*w):
    return subprocess.run(w, capture_output=True, text=True, check=True).stdout


def files(pattern):
    if commit:
        return [f for f in run("git", "ls-tree", "-r", "--name-only", commit, "crates").split("\n") if re.fullmatch(pattern, f)]
    return [f for f in run("git", "ls-files", "-co", "--exclude-standard", "crates").split("\n") if re.fullmatch(pattern, f)]


def text(f):
    return run("git", "show", f"{commit}:{f}") if commit else open(f).read()


sources = {f: text(f) for f in files(r"crates/[^/]+/src/.*\.rt")}


def say(point, what, places):
    print(f"{point}  {what}: {len(places)}")
    if loud:
        for p in places:
            print("     ", p)


def split(s, at):
    out, depth, last = [], 0, 0
    for i, c in enumerate(s):
        if c in "([{<":
            depth += 1
        elif c in ")]}" or (c == ">" and s[i - 1] != "-"):
            depth -= 1
        elif depth == 0 and s.startswith(at, i):
            out.append(s[last:i].strip())
            last = i + len(at)
    return [x for x in out + [s[last:].strip()] if x]


class Fn:
    pass


def functions():
    for f, s in sources.items():
        s = re.sub(r"^\s*//.*$", "", s, flags=re.M)
        for m in re.finditer(r"^( *)(pub(?:\([^)]*\))? )?(?:const )?(?:extern \"C\" )?fn (\w+)(<[^({]*>)?\(", s, flags=re.M):
            it = Fn()
            it.file, it.crate, it.name = f, f.split("/")[1], m.group(3)
            i, depth = m.end(), 1
            while depth:
                depth += {"(": 1, ")": -1}.get(s[i], 0)
                i += 1
            it.parameters = [p for p in split(s[m.end() : i - 1].replace("\n", " "), ",")]
            end = re.search(r"^%s\}" % m.group(1), s[i:], flags=re.M)
            rest = s[i : i + end.end()] if end else s[i:]
            it.requires = re.findall(r"requires (?:\w+ )?\{ (.*) \}\s*$", rest, flags=re.M)
            body = re.search(r"^%s\{\n(.*)^%s\}" % (m.group(1), m.group(1)), rest, flags=re.M | re.S)
            it.body = body.group(1).strip() if body else ""
            yield it


fns = list(functions())
at = lambda it: f"{it.file}: {it.name}"
enums = [f"{f}: {m.group(1)}" for f, s in sources.items() for m in re.finditer(r"^ *(?:pub )?enum (\w+)", s, flags=re.M)]
say(1, "own enums", enums)
flags = [at(it) for it in fns if any(re.match(r"(striped|way|grid): bool$", p) for p in it.parameters)]
say(1, "functions with a flag beside the value that it is about", flags)
say(3, "loops that count by hand", [f"{f}: {l.strip()}" for f, s in sources.items() for l in s.split("\n") if re.match(r" *(while (?!let)|loop \{)", l)])
say(3, "for", [f"{f}: {l.strip()}" for f, s in sources.items() for l in s.split("\n") if re.match(r" *for ", l)])
tiny = re.compile(r"\(?[\w.*!&()]+\)? as [ui]\w+|if \w+ == 0 \{ 0 \} else \{ \w+ - 1 \}|if [\w.()]+ < [\w.()]+ \{ [\w.()]+ \} else \{ [\w.()]+ \}|\(a\.x == b\.x\) & \(a\.y == b\.y\)|if \w+ \{ 1 \} else \{ 0 \}")
by_hand = [at(it) for it in fns if tiny.fullmatch(it.body.replace("\n", " ").strip()) or it.name in ("copy", "hold", "bits16", "bits32", "signed16", "signed32", "low_half", "high_half", "starts_with", "word", "half")]
say(4, "functions that convert, compare or copy by hand", by_hand)
facts = defaultdict(set)
for it in fns:
    for clause in it.requires:
        for fact in split(clause, "×"):
            facts[(it.crate, fact.strip("() "))].add(at(it))
say(5, "facts in the requires of three or more functions of a crate", [f"{c}: {p} ({len(w)})" for (c, p), w in sorted(facts.items()) if len(w) >= 3])
teams = defaultdict(set)
for it in fns:
    ps = [p.replace("mut ", "", 1) if p.startswith("mut ") else p for p in it.parameters]
    ps = [p for p in ps if ":" in p and p not in ("o: Opened", "s: &[u8]", "file: &[u8]")]
    for n in range(3, len(ps) + 1):
        for i in range(len(ps) - n + 1):
            teams[(it.crate, tuple(ps[i : i + n]))].add(at(it))
best = {}
for (c, t), w in teams.items():
    if len(w) >= 3 and not any(c == d and set(t) < set(u) and w <= x for (d, u), x in teams.items()):
        best[(c, t)] = w
say(5, "three or more parameters that three or more functions of a crate share, the record and the bytes left out", [f"{c}: {', '.join(t)} ({len(w)})" for (c, t), w in sorted(best.items())])
say(6, "functions with a buffer and its length or place beside it", [at(it) for it in fns if any(re.match(r"(held|zones|out|numbers|map|t): &(mut )?\[", p) for p in it.parameters) and any(re.match(r"(k|n|at|from|i): (usize|u32)$", p) for p in it.parameters)])
say(7, "function pointers, and enums that say which step to run", [e for e in enums if re.search(r": (Demand|Part)$", e)] + [f"{f}: {l.strip()}" for f, s in sources.items() for l in s.split("\n") if re.search(r": fn\(", l)])
say(8, "files of answers", files(r"crates/[^/]+/proofs/(.*/)?Answers\.antt"))
say(8, "functions", [at(it) for it in fns])
