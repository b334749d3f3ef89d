#!/usr/bin/env python3
"""Brings this repository's own definitions, lemmas and fields to one spelling: words in snake case.

usage: python3 tools/spell_names.py           at the top of the repository; rewrites crates/, README.md and docs/ in place
       python3 tools/spell_names.py --list    only prints the names, old and new, and those that would fall together

A definition in lower camel case, as `nextClock`, becomes `next_clock`. A lemma whose parts are joined by dashes, as `next-timely`, becomes
`next_timely`. The names that Rattle makes keep their dashes: what a file of proofs/FUNCTION/ declares at its first column, and what stands
behind `tie.`, `goal.` or a record of what is known. A name whose new spelling is taken already keeps the old one, and is printed.
"""

import os
import re
import sys

# Lemmas whose names are needed for the definitions that they speak of, and definitions whose names are free where they are used.
LEMMAS = ("goes_on", "goes_to", "has_rest", "is_free", "map_at", "one_table", "rest_all", "run_along")
FREE = ("goOn", "inSupply")
CAMEL = re.compile(r"[a-z][a-z0-9]*(?:[A-Z][A-Za-z0-9]*)+'*$")
DECLARED = re.compile(r"^(\s*)(?:(?:pub|abbrev|unfoldable|pattern|axiom)\s+)*([^\s:(){},;=]+(?:\s+[^\s:(){},;=]+)*)(?:\s*\{[^}]*\})?\s:(?:\s|$)")
TOKEN = re.compile(r"[^\s(){}\[\];,.:`\"]+")
SPLIT = re.compile(r"([^\s(){}\[\];,.:`\"]+)")


def snake(name):
    name = re.sub(r"(?<=[a-z0-9])([A-Z])", lambda m: "_" + m.group(1).lower(), name)
    return name.replace("-", "_")


def files(root, ends):
    for folder, dirs, names in os.walk(root):
        dirs[:] = sorted(d for d in dirs if d not in ("out", ".git", "target"))
        for n in sorted(names):
            if n.endswith(ends):
                yield os.path.join(folder, n)


def of_function(path):
    parts = path.split(os.sep)
    return "proofs" in parts and len(parts) - parts.index("proofs") > 2


def read(path):
    with open(path, encoding="utf-8") as f:
        return f.read()


def code_of(path, line):
    """The part of a line that is no comment."""
    mark = "//" if path.endswith(".rt") else "--"
    at = line.find(mark)
    if at > 0 and line[at - 1] not in " \t":
        return line
    return line if at < 0 else line[:at]


def bare(code):
    """The names of a line that stand alone: no part of a path, no field."""
    found = set()
    for m in TOKEN.finditer(code):
        before, after = code[:m.start()][-1:], code[m.end():][:1]
        if before != "." and after != ".":
            found.add(m.group(0))
    return found


def clause(code):
    return re.search(r"ghost |requires|ensures|λ|≡|→", code)


def table():
    declared, seen, made, taken = {}, set(), set(), set()
    for p in files("crates", (".antt", ".rt")):
        for line in read(p).split("\n"):
            code = code_of(p, line)
            seen.update(TOKEN.findall(code))
            if p.endswith(".antt") or clause(code):
                taken |= bare(code)
            if p.endswith(".rt"):
                taken.update(re.findall(r"(?:[(,]|let|mut|for)\s*(?:mut\s+)?([a-z]\w*)\s*(?:[:=]|in\b)", code))
            for m in re.findall(r"(?:tie|goal)\.(?:Need-)?([^\s(){},;:]+)", code):
                made.add(m)
            m = DECLARED.match(code) if p.endswith(".antt") else None
            if not m:
                continue
            at_edge = not m.group(1)
            for n in m.group(2).split():
                if of_function(p) and at_edge:
                    made.add(n)
                if "-" in n and re.match(r"[a-z]", n) and not (of_function(p) and at_edge):
                    declared.setdefault(n, p)
    names, kept = {}, []
    for n in sorted(seen):
        if CAMEL.match(n):
            names[n] = snake(n)
    for n in sorted(declared):
        if n not in made:
            names[n] = snake(n)
        else:
            kept.append((n, "a name that Rattle makes"))
    taken -= set(names) | set(LEMMAS) | {snake(n) for n in FREE}
    by_new = {}
    for n in sorted(names, key=lambda n: ("-" in n, n)):
        new = names[n]
        if new in by_new and "-" in n:
            new = names[n] = new + "_lem"
        if new in taken or new in by_new:
            kept.append((n, "`" + new + "` is taken" + (" by " + by_new[new] if new in by_new else "")))
        else:
            by_new[new] = n
    for n, _ in kept:
        names.pop(n, None)
    return names, kept


def lemmas_first(text):
    return re.sub(r"(?<![\w.'-])(" + "|".join(LEMMAS) + r")(?![\w.'-])", r"\1_lem", text)


def turn_code(text, names):
    out, parts = [], SPLIT.split(text)
    for i, word in enumerate(parts):
        if i % 2 and word in names:
            before = "".join(parts[max(0, i - 2):i])
            member = re.search(r"([^\s(){}\[\];,:`\"]*)\.$", before)
            if "-" in word and member and not re.match(r"[A-Z]", member.group(1).split(".")[-1] or "A"):
                out.append(word)
            else:
                out.append(names[word])
        else:
            out.append(word)
    return "".join(out)


def turn(path, names):
    text = read(path)
    camel = {n: m for n, m in names.items() if "-" not in n}
    done = []
    for line in text.split("\n"):
        code = code_of(path, line)
        rest = line[len(code):]
        if path.endswith(".antt"):
            code = lemmas_first(code)
        done.append(turn_code(code, names if path.endswith(".antt") or clause(code) else camel) + turn_code(rest, camel))
    return "\n".join(done), text


def turn_page(text, names):
    return re.sub(r"`[^`\n]+`", lambda m: turn_code(m.group(0), names), text)


def main(argv):
    names, kept = table()
    for n, why in kept:
        print(f"kept: {n}: {why}")
    if "--list" in argv:
        for n in sorted(names):
            print(f"{n} {names[n]}")
        return 0
    changed = 0
    for p in files("crates", (".antt", ".rt")):
        new, old = turn(p, names)
        if new != old:
            changed += 1
            with open(p, "w", encoding="utf-8") as f:
                f.write(new)
    edits = list(files("crates", (".edit",)))
    for p in edits + [p for p in ["README.md", *files("docs", (".md",))] if os.path.exists(p)]:
        old = read(p)
        new = turn_code(old, names) if p in edits else turn_page(old, names)
        if new != old:
            changed += 1
            with open(p, "w", encoding="utf-8") as f:
                f.write(new)
    print(f"{len(names)} names turned, {len(kept)} kept, {changed} files changed")
    return 0


if __name__ == "__main__":
    raise SystemExit(main(sys.argv[1:]))
