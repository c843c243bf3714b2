#!/usr/bin/env python3
"""Places in src/ that read like an older language, by point of docs/DESIGN-PASS.md.

    tools/places.py            of the checkout
    tools/places.py COMMIT     of a commit
    tools/places.py -v ..      each place, and not only how many

A place is found by its form alone: whether a better form is there is said in docs/DESIGN-PASS.md.
"""
import re
import subprocess
import sys
from collections import defaultdict

args = [a for a in sys.argv[1:] if a != "-v"]
verbose = "-v" in sys.argv[1:]
commit = args[0] if args else None


def out(*command):
    return subprocess.run(command, capture_output=True, text=True, check=True).stdout


if commit:
    names = out("git", "ls-tree", "-r", "--name-only", commit, "crates").split("\n")
else:
    names = out("git", "ls-files", "crates").split("\n")


def text(name):
    return out("git", "show", f"{commit}:{name}") if commit else open(name).read()


src = {n: text(n) for n in names if re.match(r"crates/\w+/src/.*\.rt$", n)}
answers = {n: text(n) for n in names if re.search(r"/(Answers|Invariants)\.antt$", n)}


def items(kind):
    """Each item of a kind: where, the comment above it, its head, its body."""
    for n, s in src.items():
        head = r"((?:^[ ]*(?://|#\[).*\n)*)^([ ]*)((?:pub )?(?:extern \"C\" )?%s [^;{]*?)\{" % kind
        if kind == "fn":
            head = r"((?:^[ ]*(?://|#\[).*\n)*)^([ ]*)((?:pub(?:\(\w+\))? )?(?:extern \"C\" )?fn [\s\S]*?)(?:^\2\{| \{$)"
        if kind == "fn":
            for m in re.finditer(head, s, re.M):
                end = s.find("\n" + m.group(2) + "}", m.end() - 1)
                yield f"{n}:{s[:m.start(3)].count(chr(10)) + 1}", m.group(1), m.group(3), s[m.end():end]
        else:
            for m in re.finditer(head, s, re.M):
                end = s.find("\n}", m.end())
                yield f"{n}:{s[:m.start(3)].count(chr(10)) + 1}", m.group(1), m.group(3), s[m.end():end]


fns = list(items("fn"))
enums = list(items("enum"))
structs = list(items("struct"))
name_of = lambda head: re.search(r"(?:fn|enum|struct) (\w+)", head).group(1)
signature = lambda head: re.split(r"\n\s*(?:requires|ensures)\b", head)[0]
found = defaultdict(list)


def parameters(head):
    inner = signature(head)
    inner = re.sub(r"^.*?fn \w+(<[^(]*>)?\(", "", inner, flags=re.S)
    inner = re.sub(r"\)\s*(->[^)]*(\)[^)]*)*)?$", "", inner.strip(), flags=re.S)
    depth, part, parts = 0, "", []
    for ch in inner:
        depth += ch in "([<" and 1 or ch in ")]>" and -1 or 0
        if ch == "," and depth == 0:
            parts, part = parts + [part.strip()], ""
        else:
            part += ch
    return [p for p in parts + [part.strip()] if p]


# 1. enums of two cases, one with a value and one without or with a refusal; numbers that stand for none; flags beside a value; numbers for kinds
for w, c, h, b in enums:
    cases = [l.strip().rstrip(",") for l in b.split("\n") if l.strip() and not l.strip().startswith("//")]
    if len(cases) == 2 and any("(" in x for x in cases):
        found[1].append((w, "enum " + name_of(h)))
for w, c, h, b in fns:
    if re.search(r"or 0\b|, or how many|or a number that no|counted from 1", c) and re.search(r"->\s*(usize|u64)", signature(h)):
        found[1].append((w, "number for none: " + name_of(h)))
    if re.search(r"\b(mode|kind|form|mark|tag): u(8|64)\b", signature(h)):
        found[1].append((w, "number for a kind: " + name_of(h)))
for w, c, h, b in structs:
    if re.search(r"\b(evicted|fetched|found): bool|\b(kind|form): u(8|64)\b", b) or name_of(h) == "Refusal":
        found[1].append((w, "flag or number in struct " + name_of(h)))
for n, s in src.items():
    for m in re.finditer(r"^.*\b(stale|marks?): &?(?:mut )?\[(u8|u64)", s, re.M):
        found[1].append((f"{n}:{s[:m.start()].count(chr(10)) + 1}", "numbers for kinds in a row"))


# 2. functions and types that differ in names, types and numbers alone
def shape(name, body):
    body = re.sub(r"//.*", "", body)
    body = re.sub(r"\b" + name + r"\b", "SELF", body)
    body = re.sub(r"\b(u8|u16|u32|u64|usize|bool|true|false)\b", "T", body)
    body = re.sub(r"\b\d[\w_]*\b", "0", body)
    body = re.sub(r"\b[A-Z]\w+\b", "N", body)
    body = re.sub(r"\b(\w+?)_?(8|16|32|64)\b", r"\1", body)
    return re.sub(r"\s+", " ", body).strip()


groups = defaultdict(list)
for w, c, h, b in fns:
    s = shape(name_of(h), b)
    loops = re.sub(r"\b[a-z]\w*\b", lambda m: m.group(0) if m.group(0) in ("if", "else", "while", "for", "in", "match", "return", "let", "mut") else "x", s)
    if len(s) > 24 and "::" not in s[:0]:
        groups[loops].append((w, name_of(h)))
for w, c, h, b in structs + enums:
    groups["type " + shape(name_of(h), b)].append((w, name_of(h)))
for s, g in sorted(groups.items()):
    if len(g) > 1:
        for w, n in g:
            found[2].append((w, "twin of " + ", ".join(sorted({m for _, m in g if m != n}) or [n])))

# 3. loops that count by hand
for n, s in src.items():
    for m in re.finditer(r"^(?!\s*//).*\bwhile (?!let)(.*)$", s, re.M):
        found[3].append((f"{n}:{s[:m.start()].count(chr(10)) + 1}", "while " + m.group(1).rstrip(" {")))

# 4. conversions, comparisons and printing by hand
for w, c, h, b in fns:
    line = re.sub(r"\s+", " ", b).strip()
    p = signature(h)
    if re.fullmatch(r"\w+(\[\w+\])? as \w+|self", line):
        found[4].append((w, "conversion " + name_of(h)))
    elif re.fullmatch(r"if (\w+) < (\w+) \{ \w+ \} else \{ \w+ \}", line):
        found[4].append((w, "least or most by hand: " + name_of(h)))
    elif re.fullmatch(r"if \w+ \{ \d \} else \{ \d \}", line):
        found[4].append((w, "number of a flag: " + name_of(h)))
    elif re.match(r"match \w+ \{", line) and line.count("=>") > 4:
        found[4].append((w, "table by hand: " + name_of(h)))
    elif "Print" in p and re.search(r"print", line) and re.search(r": u64|\[u64", p):
        found[4].append((w, "printing by hand: " + name_of(h)))
    elif re.search(r"/ 10\b", line) and re.search(r"48 \+", line):
        found[4].append((w, "digits by hand: " + name_of(h)))
    elif re.search(r"% 256\) as u8|/ 256|\* 256|\* 65536|\* 4294967296", line):
        found[4].append((w, "bytes of a number by hand: " + name_of(h)))

# 5. six parameters and more
for w, c, h, b in fns:
    ps = parameters(h)
    if len(ps) > 5:
        found[5].append((w, f"{name_of(h)}: {len(ps)} parameters"))

# 6. a slice with a count or a place beside it; rows side by side; a buffer with its length
for w, c, h, b in fns:
    ps = parameters(h)
    rows = [p for p in ps if re.search(r": &(mut )?\[", p)]
    counts = [p for p in ps if re.match(r"(n|len|held|resident|at|end|low|from|done|start): usize", p)]
    if rows and counts:
        found[6].append((w, f"{name_of(h)}: {', '.join(x.split(':')[0] for x in rows + counts)}"))
    elif len([p for p in rows if not re.match(r"(file|f|g|out|text|first|second|name|call|want)\b", p)]) > 1:
        found[6].append((w, f"{name_of(h)}: rows {', '.join(x.split(':')[0] for x in rows)}"))
for w, c, h, b in structs:
    if re.search(r"\[\w+; [^\]]+\]", b) and re.search(r"\b(len|held|at): usize", b):
        found[6].append((w, "buffer with its length: " + name_of(h)))

# 7. a flag or a number that says which step to run
for w, c, h, b in fns:
    if re.search(r"\b(on|text|first): bool", signature(h)) or re.search(r"match (form|mode)\b", b):
        found[7].append((w, name_of(h)))

# 8. answers
answer = sum(len(re.findall(r"^pub [\w+-]+ :", s, re.M)) for n, s in answers.items() if n.endswith("Answers.antt"))
own = [(n, m.group(0)) for n, s in answers.items() for m in re.finditer(r"\w*-raw\b|\bshared_slice_known-\d|\bstruct_known\S*|\benum_(told|known)-\w+", s)]
lines = sum(s.count("\n") for s in answers.values())

for point in range(1, 8):
    places = sorted(set(found[point]))
    print(f"{point}: {len(places)}")
    if verbose:
        for w, what in places:
            print("   ", w, what)
print(f"8: {answer} answers in {len(answers)} files of {lines} lines; {len(own)} cite a name that Rattle may change")
