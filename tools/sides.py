#!/usr/bin/env python3
"""Each public signature with its clauses, each type with its invariant, and each definition and statement of specs/ that changed since a commit, old and new.

    tools/sides.py COMMIT >FILE

A function that has gone over to another is paired by `GONE_OVER`.
"""
import re
import subprocess
import sys

old = sys.argv[1]
GONE_OVER = {
    ("limits", "Filter::new"): "Within::new", ("limits", "Cache::new"): "Within::new", ("limits", "Items::new"): "Within::new", ("limits", "Input::new"): "Within::new",
    ("limits", "Filter::size"): "Within::number", ("limits", "Cache::size"): "Within::number", ("limits", "Items::count"): "Within::number", ("limits", "Input::length"): "Within::number",
    ("trace", "told"): "Refusal::from",
    ("trace", "u8_at"): "number_at", ("trace", "u16_at"): "number_at", ("trace", "u32_at"): "number_at", ("trace", "u64_at"): "number_at",
    ("trace", "put_u8"): "put", ("trace", "put_u16"): "put", ("trace", "put_u32"): "put", ("trace", "put_u64"): "put",
    ("chains", "head"): "Chains::head", ("chains", "link"): "Chains::link", ("chains", "push"): "Chains::push", ("chains", "clear"): "Chains::clear",
    ("filter", "find"): "Table::find", ("filter", "find_flagged"): "Table::find_by_flag", ("filter", "find_unflagged"): "Table::find_by_flag",
    ("filter", "is_at"): "Table::is_at", ("filter", "first_noted"): "Table::first_noted", ("filter", "add"): "Table::add", ("filter", "empty"): "Table::empty",
    ("filter", "put_flag"): "Flags::put", ("filter", "clear_flags"): "Flags::clear",
    ("recency", "used"): "Log::used", ("recency", "evict"): "Log::evict", ("recency", "load"): "Log::load", ("recency", "save"): "Log::save",
}
CRATES = "limits trace chains frames recency epochs filter slim join lru_cache replays cache faithful lines abi reading".split()


def run(*command):
    return subprocess.run(command, capture_output=True, text=True, check=True).stdout


def texts(commit, folder, suffix):
    names = run("git", "ls-tree", "-r", "--name-only", commit, *[f"crates/{c}/{folder}" for c in CRATES]).split("\n")
    return {n: run("git", "show", f"{commit}:{n}") for n in names if n.endswith(suffix)}


def functions(commit):
    found = {}
    for n, s in texts(commit, "src", ".rt").items():
        crate = n.split("/")[1]
        for m in re.finditer(r"^([ ]*)((?:#\[[^\n]*\]\n[ ]*)?(?:pub )?(?:extern \"C\" )?fn (\w+)[\s\S]*?)(?:\n\1\{| \{$)", s, re.M):
            owner, of = "", None
            if m.group(1):
                for t in re.finditer(r"^impl(?:<[^{\n]*?>)? (?:(\w+)(?:<[^{\n]*>)? for )?(\w+)[^{\n]*\{", s[: m.start()], re.M):
                    owner, of = t.group(2) + "::", t.group(1)
            if not re.search(r"\bpub\b", m.group(2).split("fn ")[0]) and not of:
                continue
            head = re.sub(r"^" + m.group(1), "", m.group(2), flags=re.M)
            if of:
                start = s[: m.start()].rfind("\nimpl")
                ghost = re.search(r"ghost \w+ = \{[^\n]*\};", s[start : m.start()])
                head = s[start + 1 : s.find("{", start)].strip() + ("\n    " + ghost.group(0) if ghost else "") + "\n    " + head.replace("\n", "\n    ")
            key = owner + m.group(3)
            if (crate, key) in found:
                key = n.split("/")[-1].removesuffix(".rt") + "::" + key
            found[crate, key] = head
    return found


def types(commit):
    found = {}
    for n, s in texts(commit, "src", ".rt").items():
        crate = n.split("/")[1]
        for m in re.finditer(r"^((?:#\[[^\n]*\]\n)*pub (?:struct|enum|type|const) (\w+)[^{;\n]*(?:\{[\s\S]*?^\}|;|[^\n]*;))", s, re.M):
            found[crate, m.group(2)] = m.group(1)
    return found


def definitions(commit):
    found = {}
    for n, s in texts(commit, "specs", ".antt").items():
        crate, file = n.split("/")[1], n.split("/")[-1]
        for block in re.split(r"\n\s*\n", s):
            lines = [l for l in block.split("\n") if l.strip() and not l.lstrip().startswith("--") and not l.startswith("use ") and not l.startswith("pub use ") and not l.startswith("infix")]
            if not lines:
                continue
            m = re.match(r"(?:abbrev |unfoldable )?(?:pub )?(?:record |data )?(\S+)", lines[0])
            if m and not lines[0].startswith("pub mod"):
                found[crate, file, m.group(1)] = "\n".join(lines)
    return found


def words(s):
    return re.sub(r"\s+", " ", s or "")


def show(title, a, b):
    print(f"#### {title}\n\nbefore\n\n{indent(a)}\n\nnow\n\n{indent(b)}\n")


def indent(s):
    return "\n".join("    " + l for l in (s or "(none)").split("\n"))


was, now = functions(old), functions("HEAD")
print("### Functions\n")
for (crate, name), head in sorted(was.items(), key=lambda x: (CRATES.index(x[0][0]), x[0][1])):
    to = GONE_OVER.get((crate, name), name)
    if words(now.get((crate, to))) != words(head):
        show(f"`{crate}` {name}" + (f" → {to}" if to != name else ""), head, now.get((crate, to)))
taken = {(c, GONE_OVER.get((c, n), n)) for c, n in was}
for (crate, name), head in sorted(now.items(), key=lambda x: (CRATES.index(x[0][0]), x[0][1])):
    if (crate, name) not in taken:
        show(f"`{crate}` {name}, new", None, head)

was, now = types(old), types("HEAD")
print("### Types\n")
for key in sorted(set(was) | set(now), key=lambda x: (CRATES.index(x[0]), x[1])):
    if words(was.get(key)) != words(now.get(key)):
        show(f"`{key[0]}` {key[1]}", was.get(key), now.get(key))

was, now = definitions(old), definitions("HEAD")
print("### Definitions and statements of specs/\n")
for key in sorted(set(was) | set(now), key=lambda x: (CRATES.index(x[0]), x[1], x[2])):
    if words(was.get(key)) != words(now.get(key)):
        show(f"`{key[0]}` {key[1]}: {key[2]}", was.get(key), now.get(key))
