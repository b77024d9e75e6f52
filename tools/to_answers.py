#!/usr/bin/env python3
"""Turns proofs of the older form (Proof.antt: needs, records linked by `.before`) into Invariants.antt and Answers.antt.

usage: python3 tools/to_answers.py NAMES CRATE..      at the top of a checkout; NAMES is the folder that `rt names NAMES` wrote

A file with a goal that it cannot turn is left, and named. An answer that is only `search rules` is dropped: the check finds it alone.
"""

import glob
import json
import os
import re
import sys

NAME = r"[^\s(){}\[\];,|λ.]+"
PATH = re.compile(rf"(?<![^\s(){{}}\[\];,|λ.])({NAME})((?:\.{NAME})*)")
LET = re.compile(rf"let ({NAME}) = ({NAME}(?:\.{NAME})*) in\s*")


def plain(it):
    return it.replace("_", "-")


class Unturned(Exception):
    pass


class Function:
    def __init__(self, lts, words):
        self.lts = lts
        self.words = words
        self.steps = {}
        for i, p in enumerate(lts["places"]):
            old, new = p[2]
            if old:
                self.steps.setdefault(plain(old), []).append((i, new))
        self.given = {}
        for i, arm in enumerate(lts["arms"]):
            if arm:
                for field, step, path in arm[2]:
                    if path:
                        self.given.setdefault((plain(step), tuple(path)), set()).add((arm[0], field))
        self.needs = {}
        for o, n in lts["needs"]:
            if o.startswith("part-"):
                self.needs.setdefault("slice-bounds-" + plain(o)[5:], n)
            for prefix in ("", "overflow-", "nonzero-", "slice-", "element-"):
                self.needs.setdefault(prefix + plain(o), n)
        for o, n in lts["needs"]:
            self.needs[plain(o)] = n

    def word(self, f):
        u = f.replace("-", "_")
        return u if u in self.words else f

    def step(self, f):
        found = self.steps.get(plain(f)) or self.steps.get(plain(f)[:1].lower() + plain(f)[1:])
        if not found:
            return None
        news = {n for _, n in found}
        if len(news) > 1:
            raise Unturned(f"step {f}: {sorted(news)}")
        clauses = [self.lts["clauses"][i] for i, _ in found if self.lts["clauses"][i]]
        return news.pop(), (clauses[0]["fields"] if clauses else None)

    def resolve(self, state, fields):
        """From a state and the fields behind it: the new state. A state is ('C',), ('T', path, fields, at), ('S', step, path, clauses, taken) or ('R', path)."""
        for f in fields:
            kind = state[0]
            if kind == "C":
                if f == "before":
                    continue
                if f in ("args", "ranges", "lifetimes", "type_inv", "auto", "utf8"):
                    state = ("R", f"c.{f}")
                elif f == "requires":
                    pre = self.lts["pre"]
                    state = ("T", "c.requires", pre["fields"], 0) if pre and len(pre["fields"]) > 1 else ("R", "c.requires")
                elif re.fullmatch(r"match\d*", f):
                    state = ("M", f)
                else:
                    got = self.step(f)
                    state = ("S", plain(f), f"c.{got[0]}", got[1], ()) if got else ("R", f"c.{f}")
            elif kind == "M":
                place = {p[0]: p[2][1] for p in self.lts["places"]}
                own, first = place.get(f"At-{state[1]}-{f}"), place.get(f"At-{state[1]}-keys1")
                if not own or f == "keys1":
                    raise Unturned(f"{state[1]}.{f}")
                state = ("R", f"c.{own}.not-{first[3:]}")
            elif kind == "S":
                _, step, path, clauses, taken = state
                taken += (f,)
                arms = self.given.get((step, taken))
                if arms:
                    if len(arms) > 1:
                        raise Unturned(f"arm {step} {taken}: {sorted(arms)}")
                    arm, field = next(iter(arms))
                    state = ("R", f"c.{arm}.{field}")
                elif any(k[0] == step and k[1][: len(taken)] == taken for k in self.given):
                    state = ("S", step, path, clauses, taken)
                elif f == "ensures" and len(taken) == 1 and clauses and len(clauses) > 1:
                    state = ("T", f"{path}.ensures", clauses, 0)
                else:
                    state = ("R", path + "".join("." + self.word(t) for t in taken))
            elif kind == "T":
                _, path, names, at = state
                if f == "0" and at < len(names) - 1:
                    state = ("R", f"{path}.{names[at]}")
                elif f == "1" and at < len(names) - 2:
                    state = ("T", path, names, at + 1)
                elif f == "1" and at == len(names) - 2:
                    state = ("R", f"{path}.{names[at + 1]}")
                else:
                    raise Unturned(f"{path} {names} .{f}")
            else:
                state = ("R", f"{state[1]}.{self.word(f)}")
        return state

    def written(self, state):
        if state[0] == "C":
            return "c"
        if state[0] == "T":
            parts = [f"{state[1]}.{n}" for n in state[2][state[3] :]]
            text = parts.pop()
            while parts:
                text = f"({parts.pop()}, {text})"
            return text
        if state[0] == "M":
            raise Unturned(state[1])
        if state[0] == "S":
            return state[2] + "".join("." + t for t in state[4])
        return state[1]

    def body(self, text, c):
        """The body of an answer, by today's names."""
        alias = {c: ("C",)}
        out, at = [], 0
        while at < len(text):
            m = LET.match(text, at)
            if m and (at == 0 or text[at - 1] in " \n([{,;="):
                name, path = m.group(1), m.group(2)
                head, *fields = path.split(".")
                if head in alias:
                    state = self.resolve(alias[head], fields)
                    alias[name] = state
                    if state[0] == "R" or (state[0] == "T" and not state[3]):
                        out.append(f"let {name} = {state[1]} in" + text[m.end(2) + 3 : m.end()])
                        alias[name] = (state[0], name, *state[2:])
                    at = m.end()
                    continue
                alias.pop(name, None)
            m = re.compile(rf"let ({NAME})(?= )").match(text, at)
            if m:
                alias.pop(m.group(1), None)
            m = PATH.match(text, at)
            if m:
                head = m.group(1)
                # a field of a record is no use of the name
                if head in alias and (m.group(2) or not re.compile(r" = ").match(text, m.end())):
                    fields = [f for f in m.group(2).split(".") if f]
                    out.append(self.written(self.resolve(alias[head], fields)))
                else:
                    out.append(m.group(0))
                at = m.end()
                continue
            out.append(text[at])
            at += 1
        return "".join(out)


def tuple_parts(text):
    """The parts of a tuple `(a, b, ..)` that is the whole text, else None."""
    t = text.strip()
    if not (t.startswith("(") and t.endswith(")")):
        return None
    depth, parts, begin = 0, [], 1
    for i, ch in enumerate(t):
        if ch in "([{":
            depth += 1
        elif ch in ")]}":
            depth -= 1
            if not depth and i != len(t) - 1:
                return None
        elif ch == "," and depth == 1:
            parts.append(t[begin:i])
            begin = i + 1
    if not parts:
        return None
    last = t[begin:-1]
    if last.strip():
        parts.append(last)
    return [p.strip() for p in parts]


def as_record(text, names):
    """A nested pair of so many parts as a record by these names."""
    m = re.match(r"((?:\s*let .*? in(?=\s))*)", text, re.S)
    # the last tuple of the text: behind the lets
    at = 0
    while True:
        m = re.compile(r"\s*let ").match(text, at)
        if not m:
            break
        depth, i = 1, m.end()
        words = re.compile(r"(?<![^\s()\[\]{},;])(let|in)(?![^\s()\[\]{},;])")
        while depth:
            w = words.search(text, i)
            if not w:
                return None
            depth += 1 if w.group(1) == "let" else -1
            i = w.end()
        at = i
    head, rest = text[:at], text[at:]
    values, term = [], rest
    for k in range(len(names) - 1):
        parts = tuple_parts(term)
        if not parts:
            return None
        if len(parts) == len(names) - k:
            values += parts
            term = None
            break
        if len(parts) != 2:
            return None
        values.append(parts[0])
        term = parts[1]
    if term is not None:
        values.append(term.strip())
    if len(values) != len(names):
        return None
    inside = ";\n".join(f"    {n} = {v}" for n, v in zip(names, values) if v.strip() != "search rules")
    missing = [f"    {n} = search rules" for n, v in zip(names, values) if v.strip() == "search rules"]
    return f"{head} record {{\n" + ";\n".join([p for p in [inside] if p] + missing) + "\n  }"


BLOCK = re.compile(r"^(?:pub )?(?:abbrev )?(?:pub )?(\S+) :", re.M)


def blocks(text):
    """The file's blocks: (name, lines), name None for use lines and comments."""
    found, now = [], None
    for line in text.split("\n"):
        m = re.match(r"(?:(?:pub|abbrev|unfoldable) )*(\S+) :(?: |$)", line)
        if m and not line.startswith(("use ", "--", " ")):
            now = (m.group(1), [line])
            found.append(now)
        elif now and (line.startswith((" ", "unfolding")) or line == "" or (now[0] and line.startswith(now[0] + " "))):
            now[1].append(line)
        else:
            now = (None, [line])
            found.append(now)
    return found


def turn(path, crate, names, words):
    function = os.path.relpath(os.path.dirname(path), f"crates/{crate}/proofs").replace("/", ".")
    lts = names.get(f"Rattle-{crate}-proofs.{function}.Lts")
    if not lts:
        raise Unturned("no names")
    fn = Function(lts, words)
    text = open(path, encoding="utf-8").read()
    module = f"Rattle.{crate}.proofs.{function}"
    uses, comments, other, answers, invariants = [], [], [], [], []
    answered = {}
    for name, lines in blocks(text):
        m = name and re.search(r":\s*tie\.Need-(\S+)", lines[0])
        if m and fn.needs.get(plain(m.group(1))):
            answered[name] = fn.needs[plain(m.group(1))]
    for name, lines in blocks(text):
        whole = "\n".join(lines).rstrip()
        if name is None:
            if whole.startswith("use "):
                if not whole.startswith((f"use {module}.Statement", f"use {module}.Tie")):
                    uses.append(whole)
            elif whole.strip():
                (comments if not (answers or other or invariants) else other).append(whole)
            continue
        sig = re.match(r"(?:(?:pub|abbrev|unfoldable) )*\S+ :((?:.*\n(?=[ ]))*.*)", whole)
        kind = sig.group(1).strip()
        if kind.startswith("{M : Type 1}"):
            continue
        rest = whole[sig.end() :].lstrip("\n")
        unfold = ""
        m = re.match(r"unfolding .*\n", rest)
        if m:
            unfold, rest = m.group(0), rest[m.end() :]
        need = re.match(r"tie\.Need-(\S+)", kind)
        loop = re.match(r"tie\.(invariant|decreases)-(\S+)", kind)
        if need:
            new = fn.needs.get(plain(need.group(1)))
            if not new:
                if not re.search(r"= search rules\s*$", rest.rstrip()):
                    print("gone: {}: {}: {}".format(path, need.group(1), re.sub(r"\s+", " ", rest)[:300]))
                continue
            m = re.match(re.escape(name) + r" (.*?) ?=(?=\s)", rest, re.S)
            if not m or "\n" + name + " " in rest:
                raise Unturned(f"clauses of {name}")
            args = m.group(1).split()
            body = rest[m.end() :]
            if re.sub(r"\s+", " ", body).strip() in ("search rules", "search (rules)"):
                continue
            args = [a for a in args if a != "κs"]
            c = args[0] if args else "c"
            if len(args) > 1:
                raise Unturned(f"arguments of {name}: {args}")
            body = fn.body(body, c)
            body = PATH.sub(lambda x: answered.get(x.group(1), x.group(1)) + x.group(2), body)
            asked = lts["asked"].get(new) or lts["asked"].get(need.group(1).replace("-", "_"))
            for o, n in lts["needs"]:
                if n == new:
                    asked = lts["asked"].get(o) or lts["asked"].get(n)
            note = ""
            if asked and len(asked) > 1:
                made = as_record(body, asked)
                if made:
                    body = made
                else:
                    note = f"-- by hand: a record of {', '.join(asked)}\n"
            answers.append(f"{note}pub {new} : goal.{new}\n{unfold}{new} c ={body.rstrip()}")
        elif loop:
            label = loop.group(2)
            for (old, new), params in lts["loops"]:
                if plain(old) == plain(label):
                    break
            else:
                raise Unturned(f"loop {label}")
            at = [k for k, it in enumerate(lts["loops"]) if it[0][0] == old][0]
            changed = lts["changed"][at]
            m = re.match(re.escape(name) + r" (.*?) ?=(?=\s)", rest, re.S)
            given = m.group(1).split()
            want = [(f"l.initial.{p}" if ch else f"l.{p}") for p, ch in zip(params, changed)] + [f"l.{p}" for p, ch in zip(params, changed) if ch]
            if len(given) != len(want):
                raise Unturned(f"{name}: {len(given)} parameters, {len(want)} variables")
            table = dict(zip(given, want))
            body = rest[m.end() :]
            body = PATH.sub(lambda x: (table[x.group(1)] + x.group(2)) if x.group(1) in table and x.group(1) != "_" else x.group(0), body)
            new = f"{loop.group(1)}-{new}"
            invariants.append(f"abbrev pub {new} : goal.{new}\n{unfold}{new} l ={body.rstrip()}")
        else:
            if "tie." in whole:
                raise Unturned(f"{name} names the tie")
            other.append(whole)
    return uses, comments, other, answers, invariants, module


def trimmed(uses, body):
    """The use lines, without names that the body doesn't have."""
    words = set(re.split(r"[\s(){}\[\];,.|λ]+", body))
    kept = []
    for u in uses:
        m = re.match(r"use (\S+)\.\{(.*)\}$", u, re.S)
        if not m:
            last = u.split()[-1].split(".")[-1]
            if last in words:
                kept.append(u)
            continue
        names = []
        for n in re.split(r",\s*", m.group(2).strip()):
            shown = n.split(" as ")[-1].strip()
            parts = [p for p in shown.split("◌") if p]
            if shown in words or (parts and "◌" in shown and all(p in body for p in parts)) or shown in ("[]",):
                names.append(n)
        if names:
            kept.append(f"use {m.group(1)}.{{{', '.join(names)}}}")
    return kept


def main(argv):
    where, crates = argv[0], argv[1:]
    for crate in crates:
        listed = f"{where}/crates/{crate}/names.json"
        if not os.path.exists(listed):
            print(f"{crate}: no names")
            continue
        names = json.load(open(listed))
        words = set()
        for f in glob.glob(f"crates/*/src/**/*.rt", recursive=True):
            words |= set(re.findall(r"\w+", open(f, encoding="utf-8").read()))
        for path in sorted(glob.glob(f"crates/{crate}/proofs/**/Proof.antt", recursive=True)):
            try:
                uses, comments, other, answers, invariants, module = turn(path, crate, names, words)
            except Unturned as e:
                print(f"left: {path}: {e}")
                continue
            folder = os.path.dirname(path)
            os.remove(path)
            head = "\n".join(comments)
            if invariants:
                body = "\n\n".join(invariants)
                lines = trimmed(uses, body) + [f"use {module}.Given as goal"]
                with open(f"{folder}/Invariants.antt", "w") as f:
                    f.write("\n".join([*([head] if head else []), *lines]) + "\n\n" + body + "\n")
            if answers:
                body = "\n\n".join(other + answers)
                lines = trimmed(uses, body) + [f"use {module}.Goals as goal"]
                with open(f"{folder}/Answers.antt", "w") as f:
                    f.write("\n".join([*([head] if head and not invariants else []), *lines]) + "\n\n" + body + "\n")
            if not answers and not invariants and not os.listdir(folder):
                os.rmdir(folder)
    return 0


if __name__ == "__main__":
    raise SystemExit(main(sys.argv[1:]))
