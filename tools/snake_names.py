#!/usr/bin/env python3
"""Respells the repository's own definitions and lemmas after port.py: words in snake case.

usage: python3 tools/snake_names.py [--check]     at the top of the repository, once, after port.py and before any commit of it

A dash stays where each of its parts is a function that the lemma speaks of, as in `part-put`; else it becomes `_`. Fields
and constructors have no dash. In proofs of functions only names that the file imports are respelled, and fields of records
of ours: the others are the toolchain's. Must-fail edits, documents and comments follow, from the names that HEAD has.
"""
import os
import re
import subprocess
import sys

TOKEN = r"[^\s(){}.,;\"⌜⌝`]+"
STD = set("length append take drop map replicate reverse flatten cons sum xor put part".split())
# what would fall together with a Rust name, a parameter or another definition, or has a meaning of its own
APART = {
    "command-of": "command_of_lem",
    "in_place": "in_place_lem",
    "is-next": "is_next_lem",
    "is-repeat": "is_repeat_lem",
    "made_by": "made_by_lem",
    "powered-up": "powered_up_lem",
    "read-only-bits": "read_only_bits_lem",
    "session-by": "session_by_lem",
    "with-granted": "with_granted_lem",
}


def read(path):
    with open(path, encoding="utf-8") as f:
        return f.read()


def old_text(path):
    r = subprocess.run(["git", "show", "HEAD:" + path], capture_output=True)
    return r.stdout.decode() if r.returncode == 0 else None


def declared(text):
    """(name, is it a member) of each signature, record and data type, in order."""
    found, block = [], False
    for line in text.splitlines():
        code = re.sub(r"(^|\s)--(\s.*|$)", "", line)
        m = re.match(r"^(\s*)((?:(?:abbrev|unfoldable|pub|mutual)\s+)*)(?:(record|data|ruleset)\s+([^\s:(){},.;]+)(?=[\s({:]|$)|((?:[^\s:(){},.;=]+\s+)+):(?:\s|$))", code)
        if not m:
            if code and not code[0].isspace():
                block = False
            continue
        if m.group(3):
            found.append((m.group(4), False))
            block = m.group(3) in ("record", "data")
            continue
        if not m.group(1):
            block = False
        names = m.group(5).split()
        if names[0] in ("let", "in"):
            continue
        for n in names:
            found.append((n, block and bool(m.group(1))))
    return found


def lemma_files(top="crates"):
    for c in sorted(os.listdir(top)):
        for d in ("specs", "proofs"):
            p = f"{top}/{c}/{d}"
            if os.path.isdir(p):
                for f in sorted(os.listdir(p)):
                    if f.endswith(".antt"):
                        yield f"{p}/{f}"


def snake(name):
    return re.sub(r"(?<=[a-z0-9])([A-Z])", lambda m: "_" + m.group(1).lower(), name)


def respelled(name, member, functions):
    if name in APART:
        return APART[name]
    if not name[0].islower() or name.startswith("n+") or "◌" in name:
        return name
    parts = [snake(p) if p[:1].islower() else p for p in name.split("-")]
    if len(parts) > 1 and not member and all(p in functions for p in parts):
        return "-".join(parts)
    return "_".join(parts)


def main():
    names, members, before = {}, set(), {}
    for path in lemma_files():
        new = declared(read(path))
        for n, member in new:
            names.setdefault(n, False)
            if member:
                members.add(n)
        text = old_text(path)
        old = declared(text) if text else []
        if len(old) == len(new):
            for (o, _), (n, _) in zip(old, new):
                if o != n:
                    before[o] = n
        elif text:
            print(f"look: {path} declares {len(old)} names before and {len(new)} after")
    functions = {snake(n) for n in names if "-" not in n and n[0].islower() and n not in members} | STD
    to = {n: respelled(n, n in members, functions) for n in names}
    to = {a: b for a, b in to.items() if a != b}
    tokens = {}
    for path in lemma_files():
        for t in re.findall(TOKEN, read(path)):
            tokens.setdefault(t, set()).add(path)
    for a, b in sorted(to.items()):
        twice = [x for x in to if to[x] == b and x < a]
        if b in names or twice:
            print(f"look: {a} and {' '.join(twice) or b} fall together as {b}")
        elif b in tokens:
            print(f"look: {a} becomes {b}, which stands in {' '.join(sorted(tokens[b]))}")
    for a, b in sorted(to.items()):
        for c in sorted(os.listdir("crates")):
            for d, _, fs in os.walk(f"crates/{c}/src"):
                for f in fs:
                    t = read(f"{d}/{f}")
                    if re.search(rf"\b{re.escape(a)}\b", t) and re.search(rf"\b{re.escape(b)}\b", t):
                        print(f"look: {d}/{f} has {a} and {b}")
    if "--check" in sys.argv:
        return 0
    everywhere = {a: to.get(b, b) for a, b in before.items()} | to

    def turn(text, mapping):
        return re.sub(TOKEN, lambda m: mapping.get(m.group(), m.group()), text)

    def turn_words(text, mapping):
        return re.sub(r"(?<![\w'-])[A-Za-z_][\w'-]*", lambda m: mapping.get(m.group(), m.group()), text)

    for path in lemma_files():
        t = read(path)
        n = turn(t, to)
        n = re.sub(r"(?m)^(\s*--.*|.*\s--\s.*)$", lambda m: turn_words(m.group(), everywhere), n)
        if n != t:
            open(path, "w", encoding="utf-8").write(n)
    for c in sorted(os.listdir("crates")):
        for d, _, fs in os.walk(f"crates/{c}"):
            kind = os.path.relpath(d, f"crates/{c}").split("/")[0]
            for f in fs:
                path = f"{d}/{f}"
                t = read(path) if f.endswith((".rt", ".antt", ".edit")) else ""
                n = t
                if kind == "src" and f.endswith(".rt"):
                    camel = {a: b for a, b in everywhere.items() if "-" not in a}
                    n = turn_words(t, camel)
                elif kind == "proofs" and f.endswith(".antt") and d != f"crates/{c}/proofs":
                    imported = set()
                    for u in re.findall(r"(?ms)^use\s+Rattle\.\w+\.(?:specs|proofs)\.(?:\w+\.)*\{([^}]*)\}", t):
                        imported |= {w.split(" as ")[0].strip() for w in u.split(",")}
                    mine = {a: b for a, b in to.items() if a in imported or ("-" not in a)}
                    n = turn(t, mine)
                    fields = {a: b for a, b in to.items() if a in members}
                    n = re.sub(rf"(?<=\.)({TOKEN})", lambda m: fields.get(m.group(), m.group()), n)
                    n = re.sub(rf"(?m)({TOKEN})(?= = )", lambda m: fields.get(m.group(), m.group()), n)
                if n != t:
                    open(path, "w", encoding="utf-8").write(n)
    for d, dirs, fs in os.walk("docs"):
        for f in fs:
            if f.endswith(".md"):
                docs(f"{d}/{f}", everywhere, turn_words)
    for f in ("README.md", "bench/README.md"):
        docs(f, everywhere, turn_words)
    print(f"{len(to)} names respelled, {len(before)} by port.py")
    with open("/tmp/respelled.txt", "w", encoding="utf-8") as f:
        for a, b in sorted(everywhere.items()):
            f.write(f"{a} {b}\n")
    return 0


def docs(path, mapping, turn_words):
    """Only what stands in `code`."""
    t = read(path)
    n = re.sub(r"`[^`\n]+`", lambda m: m.group() if "/" in m.group() else turn_words(m.group(), mapping), t)
    if n != t:
        open(path, "w", encoding="utf-8").write(n)


raise SystemExit(main())
