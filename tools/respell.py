#!/usr/bin/env python3
"""Brings the repository's own definitions and lemmas to today's spelling: words in snake case, facts and modules in
camel case, a dash only between two names. Run it once at the top, after the toolchain's own upgrade scripts.

What it turns: names that a file of specs/ or proofs/ declares, also fields, constructors and helpers; the goals that
today's checker names otherwise; and the crate `bytes`, which has the name of a library today. What it leaves: all names
of the code. It stops where two names of one file would fall together.
"""
import os
import re
import sys

CRATES = {"bytes": "characters"}

# a token of antt: a name may hold dashes, primes and most signs
TOKEN = re.compile(r"[^\s(){}\[\];,.:∷λ⌜⌝\"]+")
SIGNATURE = re.compile(r"^(\s*)((?:abbrev |unfoldable |pub )*)(record |data )?([^\s:(){}.;,]+)\s*((?:\{[^}]*\}\s*|\([^()]*(?:\([^()]*\)[^()]*)*\)\s*)*):\s(.*)$")
GOAL = re.compile(r"^(goal|given|row)\.")
# parts of the names of goals, old and new
GOALS = [
    (re.compile(r"^overflow-(add|sub|mul|cast|step|shl|shr)-"), r"overflow_\1-"),
    (re.compile(r"^invariant-of-"), "invariant_of-"),
    (re.compile(r"(?<=-)in-(err|ok|default)(?=-|$)"), r"in_\1"),
    (re.compile(r"(?<=-)after-loop(?=-|$)"), "after-loop"),
]
# names of one file alone, of which the plain turn would fall together with another
ALONE = {"crates/deck/proofs/Resolved.antt": {"is_known": "is_known_by"}}
# names of the library that a lemma's name may join
WORDS = {"append", "length", "take", "drop", "map", "nil", "cons", "none", "some", "set", "push"}


def files(top):
    for folder, dirs, names in os.walk(os.path.join(top, "crates")):
        dirs[:] = sorted(d for d in dirs if d != "out")
        for n in sorted(names):
            if n.endswith((".antt", ".rt", ".edit")):
                yield os.path.join(folder, n)


def read(path):
    with open(path, encoding="utf-8") as f:
        return f.read()


def code_part(line):
    """The line without a comment that ends it, and the comment."""
    m = re.search(r"(^|\s)--(\s|$)", line)
    return (line, "") if not m else (line[: m.start()], line[m.start():])


def declared(top):
    """Each declared name with its kind: 'fact' or 'word'."""
    kinds = {}
    goals = set()
    for path in files(top):
        if not path.endswith(".antt"):
            continue
        for line in read(path).split("\n"):
            line, _ = code_part(line)
            m = SIGNATURE.match(line)
            if not m:
                continue
            _, _, shape, name, _, of = m.groups()
            if GOAL.match(of) or name in ("where", "let"):
                goals.add(name)
                continue
            fact = shape is not None or (name[0].isupper() and name[0].isascii())
            kinds[name] = "fact" if fact else kinds.get(name, "word")
    for g in goals:
        kinds.pop(g, None)
    return kinds


def snake(part):
    part = re.sub(r"([a-z0-9])([A-Z])", r"\1_\2", part)
    return part.lower() if part.isascii() else part


def camel(name):
    return "".join(p[:1].upper() + p[1:] for p in name.split("-"))


def spelled(kinds):
    """The new name of each declared name whose spelling changes."""
    words = {snake(n) for n, k in kinds.items() if k == "word" and "-" not in n} | WORDS
    new = {}
    for name, kind in kinds.items():
        if not name.replace("-", "").replace("_", "").isalnum() or not name.isascii():
            continue
        if kind == "fact":
            to = camel(name)
        else:
            parts = [snake(p) for p in name.split("-")]
            to = parts[0]
            for before, part in zip(parts, parts[1:]):
                to += ("-" if before in words and part in words else "_") + part
        if to != name:
            new[name] = to
    return new


def turned_token(t, new):
    if t in new:
        return new[t]
    for old, to in GOALS:
        t = old.sub(to, t)
    return t


def turned_antt(text, new):
    out = []
    for line in text.split("\n"):
        code, comment = code_part(line)
        code = TOKEN.sub(lambda m: turned_token(m[0], new), code)
        comment = re.sub(r"[A-Za-z][\w-]*", lambda m: new.get(m[0], m[0]) if m[0] != m[0].lower() else m[0], comment)
        out.append(code + comment)
    return "\n".join(out)


def turned_rt(text, new):
    """Clauses only: `ghost` lines, and what stands in the braces of requires, ensures and ghost members."""
    out, i = [], 0
    for m in re.finditer(r"ghost use [^;]*;|(?:requires|ensures|ghost)\b[^{};\n]*\{", text):
        if m.start() < i:
            continue
        out.append(text[i:m.start()])
        end = m.end()
        if not m[0].startswith("ghost use"):
            deep = 1
            while deep:
                deep += {"{": 1, "}": -1}.get(text[end], 0)
                end += 1
        out.append(TOKEN.sub(lambda t: turned_token(t[0], new), text[m.start():end]))
        i = end
    return "".join(out) + text[i:]


def crate_paths(text, path):
    for old, to in CRATES.items():
        text = re.sub(rf"\bRattle\.{old}\.", f"Rattle.{to}.", text)
        if path.endswith((".rt", ".edit")):
            text = re.sub(rf"(?<![\w:]){old}::(?=[a-z_A-Z])", f"{to}::", text)
    return text


def fallen_together(top, new):
    """Names of one file that would become one."""
    bad = []
    for path in files(top):
        if path.endswith(".edit"):
            continue
        seen = {}
        text = read(path)
        own = {**new, **ALONE.get(os.path.relpath(path, top), {})}
        for t in set(TOKEN.findall(text)):
            to = own.get(t, t)
            if to in seen and seen[to] != t:
                bad.append((path, seen[to], t, to))
            seen[to] = t
    return bad


def main():
    top = "."
    new = spelled(declared(top))
    bad = fallen_together(top, new)
    for path, a, b, to in bad:
        print(f"fall together in {path}: {a} and {b}, as {to}")
    if "--list" in sys.argv:
        for a in sorted(new):
            print(a, new[a])
        return
    for path in files(top):
        old = read(path)
        own = {**new, **ALONE.get(os.path.relpath(path, top), {})}
        text = turned_antt(old, own) if path.endswith(".antt") else turned_rt(old, own) if path.endswith(".rt") else old
        text = crate_paths(text, path)
        if text != old:
            with open(path, "w", encoding="utf-8") as f:
                f.write(text)
    with open("crates.txt", encoding="utf-8") as f:
        lines = f.read()
    for old, to in CRATES.items():
        lines = "\n".join(l if l.startswith("#") else re.sub(rf"(?<!\w){old}(?!\w)", to, l) for l in lines.split("\n"))
        if os.path.isdir(f"crates/{old}"):
            os.rename(f"crates/{old}", f"crates/{to}")
    with open("crates.txt", "w", encoding="utf-8") as f:
        f.write(lines)


main()
