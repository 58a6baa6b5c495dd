#!/usr/bin/env python3
"""Lists the places in src/ of the points of docs/DESIGN-PASS.md. `python3 tools/places.py [FOLDER]`, FOLDER a checkout: each place a line, and the number of each kind at the end."""
import glob
import os
import re
import sys

root = sys.argv[1] if len(sys.argv) > 1 else "."
counts = {}


def place(kind, file, line, what):
    counts[kind] = counts.get(kind, 0) + 1
    print(f"{kind}: {file}:{line}: {what}")


def bare(text):
    """The text without comments, strings and characters, in its lines."""
    text = re.sub(r"//[^\n]*", "", text)
    text = re.sub(r'b?"(?:\\.|[^"\\])*"', '""', text)
    return re.sub(r"b?'(?:\\.|[^'\\])'", "''", text)


def line_of(text, at):
    return text.count("\n", 0, at) + 1


def block(text, at):
    """The text between the brace at or after `at` and the one that closes it."""
    start = text.index("{", at)
    depth = 0
    for i in range(start, len(text)):
        depth += {"{": 1, "}": -1}.get(text[i], 0)
        if depth == 0:
            return text[start + 1 : i]
    return text[start + 1 :]


def functions(text):
    """Name, line, head (with its clauses) and body of each function."""
    for m in re.finditer(r"^ *(?:pub )?fn (\w+)", text, re.M):
        # A clause stands in braces, and so does the body, which begins a line or ends the head.
        at = m.end()
        body = re.compile(r"(?:^ *|[)>\w\]] )\{ *\n|\n\{", re.M).search(text, at)
        if not body:
            continue
        start = text.index("{", body.start())
        yield m.group(1), line_of(text, m.start()), text[m.start() : start], block(text, start)


twins = {}
clauses = {}
together = {}
for file in sorted(glob.glob(os.path.join(root, "crates/*/src/**/*.rt"), recursive=True)):
    name = os.path.relpath(file, root)
    text = bare(open(file).read())

    # 1: enums, flags and error numbers beside a value, fields that hold a kind by its number.
    for m in re.finditer(r"^(?:pub )?enum (\w+)[^{]*", text, re.M):
        body = re.sub(r"\([^)]*\)|\{[^}]*\}", "", block(text, m.start()))
        place("1 enum", name, line_of(text, m.start()), m.group(1) + ": " + " ".join(re.findall(r"\w+", body)))
    for m in re.finditer(r"^(?:pub )?struct (\w+)[^{;(]*\{", text, re.M):
        fields = re.findall(r"(\w+): ([^,\n]+)", block(text, m.start()))
        for field, kind in fields:
            if len(fields) > 1 and (kind == "bool" or kind == "i32" and field in ("error", "answer")):
                place("1 flag or error beside a value", name, line_of(text, m.start()), m.group(1) + "." + field)
            if kind in ("usize", "u64", "u32") and field in ("kind", "synchrony"):
                place("1 kind by its number", name, line_of(text, m.start()), m.group(1) + "." + field)

    for fn, line, head, body in functions(text):
        # 2: functions of one shape: names and numbers are left out, all else is the same.
        tokens = re.findall(r"\w+|[^\s\w]", re.sub(r"(requires|ensures)[^\n]*", "", head) + body)
        words = {"let", "mut", "if", "else", "while", "for", "in", "return", "match", "fn", "pub", "true", "false", "as", "loop"}
        shape = " ".join(t if t in words or not re.match(r"\w", t) else ("0" if t[0].isdigit() else "x") for t in tokens)
        if len(tokens) >= 40:
            twins.setdefault(shape, []).append((name, line, fn))
        # 5: a clause that stands at three functions or more, and parameters that always go together.
        for m in re.finditer(r"requires (?:\w+ )?\{([^\n]*)\}", head):
            for part in re.split(r" × ", m.group(1)):
                part = " ".join(part.split()).strip("() ")
                clauses.setdefault((name.split("/")[1], part), []).append((name, line, fn))
        for m in [re.search(r"\(([^{}]*?)\)\s*(?:->|requires|ensures|$)", head, re.S)]:
            params = re.findall(r"(\w+): ((?:&mut |&)?[\w<>\[\]; ]+)", m.group(1)) if m else []
            for i, a in enumerate(params):
                for b in params[i + 1 :]:
                    together.setdefault((name.split("/")[1], a, b), []).append((name, line, fn))

    # 3: loops that step an index or a count by hand.
    for m in re.finditer(r"\bwhile ([^{]*)\{", text):
        condition, body = m.group(1), block(text, m.start())
        stepped = [v for v in re.findall(r"(\w+) [+-]= \w+", body) if re.search(rf"\b{v}\b", condition)]
        place("3 loop with a count by hand" if stepped else "3 other while", name, line_of(text, m.start()), "while " + " ".join(condition.split()))

    # 4: conversions, equality and order by hand.
    for fn, line, head, body in functions(text):
        if re.fullmatch(r"\s*\w+ as \w+\s*", body):
            place("4 conversion by hand", name, line, fn)
        if re.match(r"(same|equal|is_equal|compare|cmp|eq|clone|copy)(_|$)", fn):
            place("4 equality, order or copying by hand", name, line, fn)
        if re.match(r"^(.*_of|to_\w+|from_\w+)$", fn) and re.search(r"\bmatch \w+", body) and len(re.findall(r"=>", body)) >= 2:
            place("4 match that turns one kind into another", name, line, fn)

    # 6: a buffer with a place or a length beside it.
    for fn, line, head, body in functions(text):
        if re.search(r"\w+: &(?:mut )?\[u\d+\w*\],\s*(?:at|n|have|count|size|len|length|done): usize", head):
            place("6 slice with a place or a length beside it", name, line, fn)
    # 7: a match or a chain of tests on a kind, each arm a call.
    for fn, line, head, body in functions(text):
        arms = re.findall(r"=> (?:\{\s*)?(?:\w+::)?\w+\(", body)
        if len(arms) >= 3:
            place("7 match whose arms call", name, line, fn)

for shape, all_ in sorted(twins.items(), key=lambda x: x[1]):
    if len(all_) > 1:
        for name, line, fn in all_:
            place("2 functions of one shape", name, line, f"{fn} (of {len(all_)}, as {all_[0][2]})")
for (crate, part), all_ in sorted(clauses.items()):
    if len(all_) >= 3 and re.search(r"[≤<≡]|^[A-Z]", part):
        place("5 clause at three functions or more", all_[0][0], all_[0][1], f"{part} ({len(all_)})")
for (crate, a, b), all_ in sorted(together.items()):
    if len(all_) >= 4:
        place("5 parameters together at four functions or more", all_[0][0], all_[0][1], f"{a[0]}: {a[1]}, {b[0]}: {b[1]} ({len(all_)})")
print()
for kind in sorted(counts):
    print(f"{kind}: {counts[kind]}")
