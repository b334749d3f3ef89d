#!/usr/bin/env python3
"""Counts the places of each older form in crates/*/src, of the work tree or of a commit: tools/forms.py [COMMIT] [--list]."""
import re
import subprocess
import sys

COMMIT = next((a for a in sys.argv[1:] if not a.startswith("-")), None)
LIST = "--list" in sys.argv


def git(*args):
    return subprocess.run(["git", *args], capture_output=True, text=True, check=True).stdout


def sources():
    if COMMIT:
        names = git("ls-tree", "-r", "--name-only", COMMIT, "crates").split()
    else:
        names = git("ls-files", "-co", "--exclude-standard", "crates").split()
    for name in sorted(names):
        if re.fullmatch(r"crates/\w+/src/.*\.rt", name):
            text = git("show", f"{COMMIT}:{name}") if COMMIT else open(name).read()
            yield name, text


def code(text):
    """The text without comments and without what is in quotes."""
    text = re.sub(r"//[^\n]*", "", text)
    return re.sub(r'b?"(?:\\.|[^"\\])*"', '""', text)


def functions(text):
    """Each function: its line, name, head and body."""
    for m in re.finditer(r"\bfn (\w+)", text):
        depth, i = 0, m.end()
        # A clause has braces of its own: the body begins at a brace that begins a line, or ends the head's line.
        begin = re.compile(r"^[ ]*\{$|\) (?:-> [^{}\n]+ )?\{$|\)(?: -> [^{};]+?)? \{\n", re.M).search(text, m.end())
        if not begin:
            continue
        i = text.index("{", begin.start()) if text[begin.start()] != "{" else begin.start()
        start = i
        while i < len(text):
            depth += {"{": 1, "}": -1}.get(text[i], 0)
            if depth == 0:
                break
            i += 1
        yield text.count("\n", 0, m.start()) + 1, m.group(1), text[m.start():start], text[start:i + 1]


def blocks(body, keyword):
    """Each loop of a body: its head and its block."""
    for m in re.finditer(rf"\b{keyword}\b([^{{]*)\{{", body):
        depth, i = 0, m.end() - 1
        while i < len(body):
            depth += {"{": 1, "}": -1}.get(body[i], 0)
            if depth == 0:
                break
            i += 1
        yield m.group(1).strip(), body[m.end():i]


RESULTS = {}


def found(row, name, line, what):
    RESULTS.setdefault(row, []).append(f"{name}:{line}: {what}")


def shape(body):
    """A body with its names and numbers taken out."""
    return re.sub(r"\s+", " ", re.sub(r"\b\w+\b", "x", body))


def main():
    twins = {}
    for name, text in sources():
        plain = code(text)
        for m in re.finditer(r"^(?:pub )?enum (\w+)[^{]*\{(.*?)^\}", plain, re.M | re.S):
            variants = [v for v in re.findall(r"^\s+(\w+)(\(.*\))?,", m.group(2), re.M)]
            line = plain.count("\n", 0, m.start()) + 1
            if len(variants) <= 3 and any(v[1] for v in variants):
                found("1 enums of two or three variants with data", name, line, m.group(1))
            else:
                found("1 other enums", name, line, m.group(1))
        for m in re.finditer(r"(?:Stopped|Stop|Refused|Err)\((\d+), ", plain):
            found("1 refusals as two numbers", name, plain.count("\n", 0, m.start()) + 1, m.group(0))
        for m in re.finditer(r"^\s*(?:pub )?const (\w+): (?:usize|u8|u64) = ", plain, re.M):
            found("1 numbers with a name", name, plain.count("\n", 0, m.start()) + 1, m.group(1))
        for line, fn, head, body in functions(plain):
            if body.count("\n") >= 3:
                twins.setdefault(shape(body), []).append(f"{name}:{line}: {fn}")
            for first, block in blocks(body, "while"):
                found("3 while loops", name, line, f"{fn}: while {first}")
            for first, block in blocks(body, "for"):
                m = re.match(r"(\w+) in ([\w().]*)\.\.", first)
                if m and re.search(rf"\b\w+\[{m.group(1)}\]", block):
                    found("3 for loops that index by their counter", name, line, f"{fn}: for {first}")
                elif m:
                    found("3 other for loops over a range", name, line, f"{fn}: for {first}")
            if re.search(r"\bp: &(mut )?\[u8\], v: View\b", re.sub(r"\s+", " ", head)):
                found("5 the pair p, v", name, line, fn)
            if re.search(r"\bout: &mut Output, full: usize\b", re.sub(r"\s+", " ", head)):
                found("5 the pair out, full", name, line, fn)
            if re.search(r"\bw: usize, h(eight)?: usize\b|\bw: usize, height: usize\b", re.sub(r"\s+", " ", head)):
                found("5 the pair w, h", name, line, fn)
            if re.search(r"&(mut )?\[u?\w+; \d+\],? n: usize|who: &(mut )?\[u16; 21\]", re.sub(r"\s+", " ", head)):
                found("6 an array with a length beside it", name, line, fn)
        for m in re.finditer(r'b"[^"\n]*\|\w[^"\n]*"', text):
            found("6 words parted by bars", name, text.count("\n", 0, m.start()) + 1, m.group(0))
        for m in re.finditer(r"\bLaid p\.(now|old) v", plain):
            found("5 Laid in a clause", name, plain.count("\n", 0, m.start()) + 1, "Laid")
    for members in twins.values():
        if len(members) > 1:
            for member in members:
                found("2 functions of one shape", *member.split(":", 2))
    for row in sorted(RESULTS):
        print(f"{len(RESULTS[row]):5}  {row}")
        if LIST:
            print("".join(f"       {place}\n" for place in RESULTS[row]), end="")


main()
