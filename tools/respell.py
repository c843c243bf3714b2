#!/usr/bin/env python3
"""Respells this repository's own names as today's Rattle spells names, once, after port.py: words in snake case, a dash between two names.

Run at the top of the repository, right after the kit's port/port.py:

    python3 tools/respell.py

It turns .antt files, the clauses and ghost imports of .rt files, the must-fail edits, and names between backticks in comments and pages.
Names of src/, of types, of facts and of the kit stay. What it can't turn it prints.
"""
import collections
import os
import re
import subprocess
import sys


def kit():
    """The folder of the kit's libraries, beside the page that `rt doc` names."""
    page = subprocess.run(["rt", "doc"], check=True, capture_output=True, text=True).stdout.strip()
    return os.path.join(os.path.dirname(page), "rattle")


TOKEN = re.compile(r"[^\s(){}\[\].,;:λ→←∷≡×⟦⟧\"`]+")
# what a generated proof calls its parts: these names are Rattle's
MADE = re.compile(r"^(invariant|decreases)-loop|^returns|^μ-|^(room|len|lend|shr|mut|ps|fs|ms|es)-[A-Za-z]+'?$")
# lemmas, fields and imports that would fall on the name of their function
LEMMAS = {"is-item": "is_item_lem", "kind-by": "kind_by_lem", "next-with": "next_with_lem", "items-from": "items_from_lem", "kept-write": "kept_write_lem",
          "last-place": "last_place_lem", "later-phase": "later_phase_lem", "cache-least": "cache_least_lem", "cache-most": "cache_most_lem",
          "filter-least": "filter_least_lem", "filter-most": "filter_most_lem", "items-least": "items_least_lem", "items-most": "items_most_lem",
          "input-least": "input_least_lem", "input-most": "input_most_lem"}
# names after the kit's getD, which is get_or, and names that a file gives to what it imports
BY_HAND = {"has_get_d": "has-get_or", "getD-items": "get_or-items", "getD-pages": "get_or-pages", "getD-place": "get_or-place", "frames-getD": "frames-get_or",
           "Head-post": "head_post", "filter-size": "filter_size", "items-count": "items_count", "write-header": "write_header", "write-item": "write_item"}
# words of the kit's lists, which a dash joins to another name
WORDS = {"length", "take", "drop", "map", "append", "set", "get_or", "reverse", "number", "snoc", "replicate"}


def files(ending, root="crates"):
    for folder, _, names in os.walk(root):
        if "/out" not in folder:
            for name in sorted(names):
                if name.endswith(ending):
                    yield os.path.join(folder, name)


def read(path):
    with open(path, encoding="utf8") as f:
        return f.read()


def code(line):
    """The line without its comment."""
    return re.sub(r"(^|\s)--.*", r"\1", line)


def defined(paths):
    """Names that stand before a colon or a clause at the head of a line: definitions, lemmas, fields, constructors, rule sets."""
    names = set()
    head = re.compile(r"\s*(?:(?:abbrev|unfoldable|pub|data|record|ruleset) )*([^\s(){}\[\].,;:\"]+) (?::|=)")
    for path in paths:
        for line in read(path).split("\n"):
            m = head.match(code(line))
            if m and not line.startswith(("use", "module", "infix")):
                names.add(m.group(1))
    return names


def functions(paths):
    """Functions that specs/ defines: what a dash may join."""
    head = re.compile(r"(?:abbrev|unfoldable) pub (\S+) :")
    return {m.group(1) for path in paths for line in read(path).split("\n") if (m := head.match(line))}


def asked():
    """Goals, invariants and measures, which Rattle names."""
    return {m for path in files(".antt") for m in re.findall(r" : (?:goal|tie)\.(?:Need-)?([^\s(){}]+)", read(path))}


def snake(name):
    return re.sub(r"(?<=[a-z0-9])([A-Z])(?![A-Z])", lambda m: "_" + (m.group(1).lower() if m.end() < len(name) else m.group(1)), name)


def kit_tokens():
    tokens = set()
    for folder, _, names in os.walk(kit()):
        for name in names:
            if name.endswith(".antt"):
                tokens.update(TOKEN.findall(read(os.path.join(folder, name))))
    return tokens


def spellings():
    antt = list(files(".antt"))
    own = defined(antt)
    kit = kit_tokens()
    made = asked()
    used = collections.Counter()
    for path in antt:
        for line in read(path).split("\n"):
            used.update(TOKEN.findall(code(line)))
    words = WORDS | {snake(n) for n in functions(p for p in antt if "/specs/" in p)}
    new = {}
    for name in used:
        if name in LEMMAS or name in BY_HAND:
            new[name] = LEMMAS.get(name) or BY_HAND[name]
            continue
        if not re.match(r"^[a-zμ]", name) or MADE.match(name) or name in made:
            continue
        if "-" not in name.strip("-") and not re.search(r"[a-z0-9][A-Z]", name):
            continue
        if name not in own and name in kit:
            continue
        parts = snake(name).split("-")
        joint = "-" if len(parts) == 2 and all(p in words for p in parts) else "_"
        to = joint.join(parts)
        if to != name:
            new[name] = to
    # two names that fall together, or one that falls on a name in use
    fall = collections.Counter(new.values())
    for name, to in sorted(new.items()):
        if fall[to] > 1 or (to in used and to not in new):
            print(f"look: {name} falls on {to}", file=sys.stderr)
    return new


def turned(text, new, kit_names):
    return TOKEN.sub(lambda m: m.group(0) if m.group(0) in kit_names else new.get(m.group(0), m.group(0)), text)


def quoted(text, new):
    """Names between backticks."""
    return re.sub(r"`([^`\n]+)`", lambda m: "`" + turned(m.group(1), new, ()) + "`", text)


def from_kit(text):
    """What a file imports from the kit under the name of one of ours."""
    names = set()
    for m in re.finditer(r"^(?:ghost )?use (\S+?)\.\{([^}]*)\}", text, re.M):
        if not m.group(1).startswith("Rattle.") or m.group(1).startswith("Rattle.std."):
            names.update(n.strip() for n in m.group(2).split(","))
    return names


def turn_antt(text, new):
    kit_names = from_kit(text)
    lines = []
    if "pub per-million : " in text:
        new = dict(new, **{"per-million": "per_million_lem"})
    for line in text.split("\n"):
        body = code(line)
        lines.append(turned(body, new, kit_names) + quoted(line[len(body):], new))
    return "\n".join(lines)


def turn_rt(text, new):
    kit_names = from_kit(text)
    lines = []
    for line in text.split("\n"):
        at = re.search(r"(^|\s)//", line)
        body, rest = (line[: at.start()], line[at.start():]) if at else (line, "")
        body = re.sub(r'"(?:[^"\\]|\\.)*"|[^"]+', lambda m: m.group(0) if m.group(0).startswith('"') else turned(m.group(0), new, kit_names), body)
        lines.append(body + quoted(rest, new))
    return "\n".join(lines)


# ---- must-fail edits, which port.py leaves

OLD_USE = re.compile(r"^(?:ghost )?use [A-Za-z·.]+\.\{(.*)\};?$")
PORTED = {"getD": "get_or", "getLast?": "get_last?", "dropLast": "drop_last", "isLast": "is_last", "itemAt": "item_at", "tagOf": "tag_of", "answerOf": "answer_of",
          "flagsOf": "flags_of", "frameAt": "frame_at", "itemsOf": "items_of", "modeOf": "mode_of", "stateOf": "state_of", "oneOf": "one_of", "numberAt": "number_at"}


def turn_term(text, new):
    """A line of a definition, or of code, as port.py and this script turn it."""
    text = re.sub(r"Rattle·([a-z]+)(?:·specs)?\.specs(?:\.specs)?\.", r"Rattle.\1.specs.", text)
    text = re.sub(r"(?<=[{ (,])_(\S+?)_(?=[},) ]|$)", r"◌\1◌", text)
    # a projection is written tight; one of a call keeps the call's parentheses
    text = re.sub(r"\((item|header|itemAt) (\([^()]*\)|[a-z]+)((?: 0)?) \.([a-z]+)\)", r"(\1 \2\3).\4", text)
    text = re.sub(r"(?<!\()\b(item|header|itemAt) (\([^()]*\)|[a-z]+)((?: 0)?) \.([a-z]+)", r"(\1 \2\3).\4", text)
    text = re.sub(r"\((item|header|itemAt) (\([^()]*\)|[a-z]+) \.([a-z]+) -", r"((\1 \2).\3 -", text)
    text = re.sub(r"(?<=[\w)]) \.([a-z])", r".\1", text)
    text = re.sub(r"\(([a-z]\.[a-z]+|\([a-z]+ [a-z]+\)\.[a-z]+)\)", r"\1", text)
    text = re.sub(r"\((\(replay [^.]*\)\.[a-z]+)\)", r"\1", text)
    text = text.replace("((header f).items - 1).time)", "((header f).items - 1)).time")
    return turned(turned(text, PORTED, ()), new, ())


# what an edit of a contract says of a lent value
LENT = [(r"ensures \{ λ _\. ⌜ (.*) ⌝ \}", r"ensures { \1 }"), (r"now \((\w+) \.exit\)", r"\1.new"), (r"\(now \((log|stale) \.entry\)\)", r"\1.now"),
        (r"\(now \((\w+) \.entry\)\)", r"\1.old"), (r"now \((\w+) \.entry\)", r"\1.old")]


def turn_contract(text, new):
    for old, to in LENT:
        text = re.sub(old, to, text)
    return turned(turned(text, PORTED, ()), new, ()) if any(re.search(w, text) for w in ("≡", "pagesOf")) else text


def turn_edit(path, new):
    lines = read(path).rstrip("\n").split("\n")
    crate = os.path.dirname(os.path.dirname(path))
    target = next(os.path.join(crate, l[6:]) for l in lines if l.startswith("file: "))
    text = read(target)
    out, place, added = [], None, None
    for i, line in enumerate(lines):
        key, _, value = line.partition(": ")
        if key not in ("old", "new"):
            out.append(line)
            continue
        use = OLD_USE.match(value)
        if use and "Rattle" not in value:
            names = [n.strip() for n in turn_term("{" + use.group(1) + "}", new)[1:-1].split(",")]
            if key == "old":
                place, added = next((l for l in text.split("\n") if "use Rattle.std.specs.Prelude.{" in l), None), names
                out.append(f"old: {place}")
            else:
                extra = [n for n in names if n not in added and not re.search(r"[{ ]" + re.escape(n) + r"[,}]", place)]
                result = place.replace("}", "".join(", " + n for n in extra) + "}")
                out.append(f"new: {result}")
            continue
        value = turn_term(value, new) if target.endswith(".antt") else turn_contract(value, new)
        out.append(f"{key}: {value}")
    # what doesn't fit
    for line in out:
        if line.startswith("old: "):
            old = line[5:]
            if text.count(old) != 1:
                print(f"look: {path}: stands {text.count(old)} times: {old}", file=sys.stderr)
                break
            position = out.index(line)
            text = text.replace(old, out[position + 1][5:])
    return "\n".join(out) + "\n"


def main():
    new = spellings()
    pages = [p for p in ("README.md", "rust/README.md") if os.path.exists(p)] + list(files(".md", "docs"))
    turns = [(p, turn_antt) for p in files(".antt")] + [(p, turn_rt) for p in files(".rt")] + [(p, quoted) for p in pages]
    for path, turn in turns:
        before = read(path)
        after = turn(before, new)
        if after != before:
            with open(path, "w", encoding="utf8") as f:
                f.write(after)
    for path in files(".edit"):
        before = read(path)
        after = turn_edit(path, new)
        if after != before:
            with open(path, "w", encoding="utf8") as f:
                f.write(after)
    print(f"respelled: {len(new)} names")


if __name__ == "__main__":
    main()
