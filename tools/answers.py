#!/usr/bin/env python3
"""Turns a function's Proof.antt, which walks the code by the older names, into Invariants.antt and Answers.antt.

usage: python3 tools/answers.py CRATE..      at the top of the repository, with the crates below proved

It asks `rt check --generated FOLDER --old-names` for each goal's old and new name and for the steps between them. An answer that
only says `search rules` goes: the check finds it. A line `-- TODO` marks what it could not turn.
"""
import json
import os
import re
import subprocess
import sys
import tempfile

W = r"[^\s(){}.;,@\"«»\[\]\\]+"


def plain(name):
    return re.sub("-+", "-", re.sub("_lem$", "", name).replace("_", "-")).lower()


def blocks(text):
    """The file's use lines, leading comment and declarations: each a list of lines."""
    lines = text.split("\n")
    head, uses, decls = [], [], []
    i = 0
    while i < len(lines) and lines[i].startswith("--"):
        head.append(lines[i])
        i += 1
    comment = []
    cur = None
    while i < len(lines):
        line = lines[i]
        if re.match(r"(ghost )?use ", line):
            uses.append(line)
            cur = None
        elif line.startswith("--") and not (cur and False):
            comment.append(line)
            cur = None
        elif line.strip() == "":
            if cur is not None:
                cur.append(line)
        elif not line.startswith((" ", "\t")):
            word = re.sub(r"^(abbrev |unfoldable |pub )+", "", line).split(" ")[0]
            if cur is not None and (word == cur_name or word in ("unfolding", "where")):
                cur.append(line)
            else:
                cur = comment + [line]
                comment = []
                cur_name = word
                decls.append((word, cur))
        else:
            cur.append(line)
        i += 1
    return head, uses, decls


FN = re.compile(r"^( *)(?:pub )?(?:const )?(?:unsafe )?(?:extern \"C\" )?fn (\w+)")
CLAUSE = re.compile(r"^ *(requires|ensures)\*? (\w+) \{")
contracts = {}


def read_contracts(crate):
    """The names of each function's clauses, where it has several."""
    for folder, _, files in os.walk(f"crates/{crate}/src"):
        for f in files:
            if not f.endswith(".rt"):
                continue
            inside, fn = None, None
            for line in open(os.path.join(folder, f), encoding="utf-8"):
                m = re.match(r"impl(?:<[^>]*>)? (?:\w+ for )?(\w+)", line)
                if m:
                    inside = m[1]
                if line.startswith("}"):
                    inside = None
                m = FN.match(line)
                if m:
                    fn = (crate, (inside + "::" if inside and m[1] else "") + m[2])
                    contracts[fn] = {"requires": [], "ensures": []}
                m = CLAUSE.match(line)
                if m and fn:
                    contracts[fn][m[1]].append(m[2])
                if line.strip() == "{":
                    fn = None


def clauses_of(callee, kind):
    """callee as crate::module::Type::name"""
    parts = callee.split("::")
    for n in (2, 1):
        found = contracts.get((parts[0], "::".join(parts[-n:])))
        if found:
            return found[kind]
    return []


class Places:
    def __init__(self, names, own):
        self.of = {}
        self.own = own
        self.arms = {}
        for (old, *_), arm in zip(names["places"], names["arms"]):
            if arm:
                self.arms[old] = arm
        self.callee = {}
        self.params = names["params"]
        for old, parent, label, callee, _ in names["places"]:
            self.of[old] = (parent, label)
            if callee:
                self.callee[label[1]] = callee

    def named(self, rest):
        """.ensures.0 of a callee with several clauses is .ensures.NAME; so of the function's own requires."""
        if rest[0] == "requires":
            names, at = clauses_of(self.own, "requires"), 1
        elif len(rest) > 1 and rest[1] in ("ensures", "requires") and rest[0] in self.callee:
            names, at = clauses_of(self.callee[rest[0]], rest[1]), 2
        elif len(rest) > 2 and rest[1] in ("auto", "new") and rest[2] in ("0", "1") and rest[0] in self.callee:
            # what is lent to a call went by its place among the arguments
            params = self.params.get(self.callee[rest[0]], [])
            i, j = 0, 2
            while j < len(rest) and rest[j] == "1" and i < len(params) - 1:
                i, j = i + 1, j + 1
            if j < len(rest) and rest[j] == "0" and i < len(params) - 1:
                j += 1
            return rest[:2] + [params[i]] + rest[j:] if params else rest
        else:
            return rest
        if len(names) > 1 and len(rest) > at and rest[at] in ("0", "1"):
            # several clauses were pairs within pairs
            i, j = 0, at
            while j < len(rest) and rest[j] == "1" and i < len(names) - 1:
                i, j = i + 1, j + 1
            if j < len(rest) and rest[j] == "0" and i < len(names) - 1:
                j += 1
            rest = rest[:at] + [names[i]] + rest[j:]
        elif len(names) > 1 and len(rest) == at:
            rest = rest + [None, names]
        return rest

    def parent(self, place):
        return self.of[place][0] if place in self.of else None

    def arm(self, place, rest):
        """What a match's arm tells: t.given.1 is in-V.is."""
        p = place
        while p is not None and p in self.of:
            if p in self.arms and plain(self.of[p][1][0]) == plain(rest[0]):
                name, _, fields = self.arms[p]
                best = None
                for new, label, old in fields:
                    if plain(label) == plain(rest[0]) and rest[1 : 1 + len(old)] == old and old:
                        if best is None or len(old) > best[1]:
                            best = (new, len(old))
                if best:
                    return [name, best[0]] + rest[1 + best[1] :]
            p = self.of[p][0]
        return None

    def label(self, place, word):
        """The new label of a step by its old one, at a place or above it."""
        p = place
        while p is not None and p in self.of:
            old, new = self.of[p][1]
            if plain(old) == plain(word) and old:
                return new
            p = self.of[p][0]
        return None


PATH = re.compile(r"(?<![\w'.\-₀])(" + W + r")((?:\." + W + r")+)|(?<![\w'.\-₀])([a-z][\w']*)(?![\w'.\-₀])")


def turn_body(body, place, places, todo):
    env = {"c": place}
    body = re.sub(r"\.«(\w+)»\.(ensures|result|requires|new|auto)", r".\1.\2", body)

    def walk(head, steps):
        at = env[head]
        if isinstance(at, tuple):
            return walk(at[0], at[1] + steps)
        i = 0
        while i < len(steps) and steps[i] == "before":
            # past the start: today's walk has fewer steps
            at = places.parent(at) or at
            i += 1
        if i == len(steps):
            return "c", at
        rest = steps[i:]
        rest[0] = {"well-formed": "well_formed", "type-inv": "type_inv", "pre": "requires"}.get(rest[0], rest[0])
        if rest[0] not in ("type_inv", "args", "requires", "ranges", "well_formed", "initial"):
            new = places.label(at, rest[0]) or places.label(place, rest[0])
            arm = places.arm(at, rest) or places.arm(place, rest)
            if arm:
                rest = arm
            elif new is None:
                todo.append("no step " + rest[0] + " at " + str(at))
            else:
                rest = [new] + rest[1:]
        rest = places.named(rest)
        if len(rest) > 2 and rest[-2] is None:
            head = "c." + ".".join(rest[:-2])
            return "(" + ", ".join(f"{head}.{n}" for n in rest[-1]) + ")", "many"
        rest = ["type_inv" if r == "type-inv" else r for r in rest]
        said = "c." + ".".join(rest)
        if re.match(r"if-not-", rest[0]) and rest[-1] in ("true", "false") and len(rest) == 2:
            return f"(not_from_{'false' if rest[-1] == 'true' else 'true'} _ {said})", None
        return said, None

    # aliases first, in order
    out = []
    pos = 0
    token = re.compile(r"let (" + W + r") = (" + W + r"(?:\." + W + r")*) in[ \n]+ *|" + r"let (?P<bound>" + W + r")(?= [:=])|" + PATH.pattern)
    while True:
        m = token.search(body, pos)
        if not m:
            out.append(body[pos:])
            break
        out.append(body[pos : m.start()])
        if m.group(1):
            name, path = m.group(1), m.group(2)
            head, *steps = path.split(".")
            if head in env:
                new, at = walk(head, steps)
                if at == "many":
                    env[name] = (head, steps)
                elif at is not None:
                    env[name] = at
                else:
                    tail = m.group(0)[m.group(0).index(" in") :]
                    out.append(f"let {name} = {new}{tail}")
                    env.pop(name, None)
            else:
                out.append(m.group(0))
                env.pop(name, None)
        elif m.group("bound"):
            env.pop(m.group("bound"), None)
            out.append(m.group(0))
        elif m.group(4):
            head, steps = m.group(4), m.group(5).lstrip(".").split(".")
            if head in env:
                new, at = walk(head, steps)
                if at is not None and at != "many":
                    todo.append("a whole place is passed on: " + m.group(0))
                out.append(new)
            else:
                out.append(m.group(0))
        else:
            word = m.group(6)
            if word in env and isinstance(env[word], tuple):
                out.append(walk(word, [])[0])
                pos = m.end()
                continue
            if word in env:
                if word != "c":
                    todo.append("a whole place is passed on: " + word)
                else:
                    todo.append("c is passed on")
                out.append("c")
            else:
                out.append(word)
        pos = m.end()
    return "".join(out)


def parts(text):
    """The parts of a tuple, or None: text is (a, b, ..)."""
    depth, out, start = 0, [], 1
    for i, ch in enumerate(text):
        if ch in "([{":
            depth += 1
        elif ch in ")]}":
            depth -= 1
            if depth == 0 and i != len(text) - 1:
                return None
        elif ch == "," and depth == 1:
            out.append(text[start:i].strip())
            start = i + 1
    return [p for p in out + [text[start:-1].strip()] if p]


def as_record(body, names, todo):
    """A tuple that ends an answer, as a record with a field for each clause."""
    text = body.rstrip()
    if text.endswith(")"):
        depth = 0
        for i in range(len(text) - 1, -1, -1):
            if text[i] == ")":
                depth += 1
            elif text[i] == "(":
                depth -= 1
                if depth == 0:
                    break
        before = text[:i].rstrip()
        got = parts(text[i:])
        while got and len(got) < len(names) and got[-1].startswith("(") and parts(got[-1]):
            got = got[:-1] + parts(got[-1])
        if got and len(got) >= len(names) and (before == "" or re.search(r"(^|\s)in$", before)):
            if len(got) > len(names):
                got = got[: len(names) - 1] + ["(" + ", ".join(got[len(names) - 1 :]) + ")"]
            return text[:i] + "record { " + "; ".join(f"{n} = {g}" for n, g in zip(names, got)) + " }"
    text = text.strip()
    if "\n" not in text and text.count(" ") == 0:
        return " record { " + "; ".join(f"{n} = {text}.{i}" for i, n in enumerate(names)) + " }"
    pad = "\n    "
    return pad + "record {" + pad + "  " + (";" + pad + "  ").join(f"{n} = ({text}).{i}" for i, n in enumerate(names)) + ";" + pad + "}"


def turn_invariant(kind, decl, loops, changed, todo):
    """abbrev invariant-loop a b c = .. with today's names."""
    text = "\n".join(decl)
    m = re.search(r"^(?:invariant|decreases)-" + W + r"((?: " + W + r")*) =", text, re.M)
    args = m[1].split()
    body = text[m.end() :]
    return args, body


def convert(crate, function_folder, names, old):
    text = open(os.path.join(function_folder, old), encoding="utf-8").read()
    head, uses, decls = blocks(text)
    own = crate + "::" + os.path.relpath(function_folder, f"crates/{crate}/proofs").replace("/", "::")
    places = Places(names, own)
    called = {}
    for _, _, label, callee, _ in names["places"]:
        if callee:
            called[label[1]] = callee
    needs = {}
    for (o, n), at in zip(names["needs"], names["asked_at"]):
        needs.setdefault(plain(o), (n, at[0]))
    loops = names["loops"]
    loop_names = {}
    for lp, ch in zip(loops, names["changed"]):
        loop_names[plain(lp[0][0])] = (lp[0][1], lp[1], ch)
    path = ".".join(os.path.relpath(function_folder, f"crates/{crate}/proofs").split("/"))
    answers, invariants, helpers = [], [], []
    todos = []
    for name, decl in decls:
        body_text = "\n".join(decl).rstrip()
        if "tie.close" in body_text:
            continue
        m = re.search(r"tie\.(invariant|decreases)-(" + W + ")", body_text)
        n = re.search(r"^(?:pub )?" + re.escape(name) + r" : tie\.Need-(" + W + ")", body_text, re.M)
        if m and re.search(r"^abbrev .*: tie\.", body_text, re.M):
            kind, loop = m[1], plain(m[2])
            if loop not in loop_names:
                helpers.append("-- TODO no loop " + loop + "\n" + body_text)
                todos.append("loop " + loop)
                continue
            new, live, ch = loop_names[loop]
            k = re.search(r"^(?:invariant|decreases)-" + W + r"((?: " + W + r")*?) =", body_text, re.M)
            args = k[1].split()
            body = body_text[k.end() :]
            table = {}
            want = [("l.initial." + v if c else "l." + v) for v, c in zip(live, ch)] + ["l." + v for v, c in zip(live, ch) if c]
            if len(want) != len(args):
                todos.append(f"invariant has {len(args)} parameters, and the loop {want}")
            for a, w in zip(args, want):
                if a != "_":
                    table[a] = w
            def sub(mm):
                word = mm[0]
                return table.get(word, word)
            body = re.sub(r"(?<![\w'.\-₀])[A-Za-z][\w'₀]*(?![\w'\-₀])", sub, body)
            comments = [l for l in decl if l.startswith("--")]
            invariants.append("\n".join(comments + [f"abbrev pub {kind}-{new} : goal.{kind}-{new}", f"{kind}-{new} l ={body}"]))
            continue
        if n:
            old_need = plain(n[1])
            found = None
            for cut in ("", "overflow-", "nonzero-", "bounds-"):
                if old_need.startswith(cut) and old_need[len(cut) :] in needs:
                    found = needs[old_need[len(cut) :]]
                    break
            lines = body_text.split("\n")
            sig = next(i for i, l in enumerate(lines) if re.match(r"^(?:pub )?" + re.escape(name) + " : ", l))
            comments = lines[:sig]
            rest = lines[sig + 1 :]
            unfold = []
            while rest and rest[0].startswith("unfolding"):
                unfold.append(rest.pop(0))
            clause = "\n".join(rest)
            k = re.match(re.escape(name) + r" c( κs)?((?: " + W + r")*?) =", clause)
            if k and clause[k.end() :].strip() == "search rules" and not unfold:
                continue
            m2 = re.match(r"slice-bounds-(.*)-(start|end)$", old_need)
            for new, at in needs.values():
                if m2 and not found and plain(new) == f"slice-bounds-{m2[1]}-count":
                    found = (re.sub("-count$", "-" + m2[2], new), at)
            if not found or not k:
                helpers.append("-- TODO no goal for " + n[1] + "\n" + body_text)
                todos.append("goal " + n[1])
                continue
            new, at = found
            todo = []
            body = turn_body(clause[k.end() :], at, places, todo).replace(".type-inv", ".type_inv")
            asked = []
            if re.match(r"returns($|-)", new):
                asked = clauses_of(own, "ensures")
            elif new.endswith("-requires") and new[: -len("-requires")] in called:
                asked = clauses_of(called[new[: -len("-requires")]], "requires")
            if len(asked) > 1:
                body = as_record(body, asked, todo)
            todos += [new + ": " + t for t in todo]
            answers.append("\n".join(comments + [f"pub {new} : goal.{new}"] + unfold + [f"{new} c{k[2]} ={body}"] + (["-- TODO " + "; ".join(todo)] if todo else [])))
            continue
        if "tie." in body_text:
            todos.append("helper over places: " + name)
            helpers.append("-- TODO\n" + body_text)
        else:
            helpers.append(body_text)
    keep = [u for u in uses if not re.search(r"\.(Statement|Tie)(\.\{| as|$)", u)]
    keep = [u for u in keep if u != "use borrow.Author.Rules.{rules}"]

    def used(body):
        """The use lines whose names the body has."""
        out = []
        words = set(re.findall(r"[^\s(){}.;,@\"«»]+", body))
        for u in keep:
            m = re.match(r"use (\S+?)\.\{([^}]*)\}$", u)
            if not m:
                out.append(u)
                continue
            items = [i.strip() for i in m[2].split(",")]
            def has(item):
                last = item.split(" as ")[-1].strip("«»")
                if last in words:
                    return True
                if "◌" in last:
                    return all(p in words for p in last.split("◌") if p) or last in words
                return last == "arith" and "arith" in words or last == "rules" and "rules" in words
            left = [i for i in items if has(i)]
            if left:
                out.append(f"use {m[1]}.{{{', '.join(left)}}}")
        for test in ("not_from_true", "not_from_false"):
            if test in words and not any(test in u for u in out):
                out.append(f"use Rattle.std.proofs.lemmas.Bool.{{{test}}}")
        if "rules" in words and not any("rules" in u for u in out):
            out.append("use Rattle.std.proofs.Common.{rules}")
        return out

    result = {}
    if invariants:
        body = "\n\n".join(invariants)
        result["Invariants.antt"] = "\n".join((head if not answers else []) + used(body) + [f"use Rattle.{crate}.proofs.{path}.Given as goal", "", body, ""])
    if answers or helpers:
        body = "\n\n".join(helpers + answers) if answers else "\n\n".join(helpers)
        result["Answers.antt"] = "\n".join(head + used(body) + [f"use Rattle.{crate}.proofs.{path}.Goals as goal", "", body, ""])
    return result, todos


def main():
    for crate in os.listdir("crates"):
        read_contracts(crate)
    for crate in sys.argv[1:]:
        folder = f"crates/{crate}"
        with tempfile.TemporaryDirectory() as d:
            r = subprocess.run(["rt", "check", "--generated", d, "--old-names"], cwd=folder, stdout=subprocess.PIPE, stderr=subprocess.STDOUT, text=True)
            file = os.path.join(d, "names.json")
            if not os.path.exists(file):
                print(crate, "rt says:", r.stdout[-1500:])
                continue
            names = json.load(open(file))
        for key, value in names.items():
            m = re.fullmatch(rf"Rattle-{crate}-proofs\.(.+)\.Lts", key)
            if not m:
                continue
            where = os.path.join(folder, "proofs", *m[1].split("."))
            old = os.path.join(where, "Proof.antt")
            if not os.path.exists(old):
                continue
            try:
                result, todos = convert(crate, where, value, "Proof.antt")
            except Exception as e:
                print(f"{crate} {m[1]}: not turned: {e!r}")
                continue
            os.remove(old)
            for name, text in result.items():
                with open(os.path.join(where, name), "w", encoding="utf-8") as f:
                    f.write(text)
            if not result and not os.listdir(where):
                os.rmdir(where)
            for t in todos:
                print(f"{crate} {m[1]}: {t}")


main()
