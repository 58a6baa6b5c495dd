#!/usr/bin/env python3
"""Turns the names that this repository's own definitions, constructors, fields and lemmas had to snake case.

usage: python3 tools/respell.py            at the top of the repository, once, after the kit's own port.py

A word in camel case (`itemSize`) gets underscores (`item_size`), also as a part of a lemma's name (`length-itemSize`). A hyphen in the name of a definition, a
constructor or a field becomes an underscore (`behind-event`). Types, modules and the hyphens of lemmas stay, as do names of the library's, functions of src/, strings,
inputs and outputs. It says which names were turned, and stops before it writes where two names fall together.
"""

import collections
import os
import re
import sys

# Names of the library's, which happen to be in camel case.
LIBRARY = {"walk_Meets", "sint_Lawful", "sint_Tells", "shr_Tells"}
# Fields whose names with underscores are those of definitions.
OTHER = {
    "all-symbols": "every_symbol",
    "event-line": "line_of_event",
    "group-item": "item_of_group",
    "group-line": "line_of_group",
    "no-entry": "without_entry",
    "send-line": "line_of_send",
    "told-end": "end_told",
}
# Lemmas beside a definition of that name, which get their hyphen back.
LEMMAS = re.compile(r"(?<![.`\w'-])(is_name|was_read|run_length|labels_at|items_at|labels_right)(?![\w'-])")
CAMEL = re.compile(r"[a-z][a-z0-9_]*[A-Z]")
HEAD = re.compile(r"(?:abbrev|unfoldable|pub|mutual|data|record)\b")
PIECES = re.compile(r'"(?:\\.|[^"\\\n])*"|b?\'(?:\\.[^\']*|[^\'\\\n])\'(?![A-Za-z0-9_])|[^\W\d][\w\'-]*')
TICKS = re.compile(r"`[^`\n]+`")


def files():
    for root, folders, names in os.walk("crates"):
        folders[:] = sorted(f for f in folders if f != "out")
        for name in sorted(names):
            if name.endswith((".rt", ".antt", ".edit")):
                yield os.path.join(root, name)


def pages():
    yield "README.md"
    for name in sorted(os.listdir("docs")):
        if name.endswith(".md") and name not in ("LANDINGS.md", "PORT.md"):
            yield os.path.join("docs", name)


def snake(word):
    return re.sub(r"(?<=[a-z0-9_])_?([A-Z])", lambda m: "_" + m.group(1).lower(), word)


def turn_part(part):
    """A part of a name, between hyphens."""
    if part in LIBRARY or not CAMEL.match(part):
        return part
    before = None
    while before != part:
        before = part
        part = snake(part)
    return part


def told(text):
    return re.sub(r"(?m)(^|\s)--\s.*$", "", text)


def fields(text):
    """Names with a hyphen of definitions, constructors and fields."""
    block = False
    for line in told(text).splitlines():
        if not line.strip():
            continue
        if line[0] != " ":
            block = bool(re.match(r"(?:(?:pub|unfoldable|abbrev|mutual)\s+)*(?:data|record)\b", line))
            found = None if block else re.match(r"(?:abbrev|unfoldable)\s+(?:pub\s+)?([a-z][^\s:({]*)\s*:", line)
        elif block:
            found = re.match(r"  (?:pub )?([a-z][^\s:({]*)\s*:", line)
        else:
            found = None
        if found and "-" in found.group(1):
            yield found.group(1)


def declared(text):
    return re.findall(r"(?m)^ *(?:(?:abbrev|unfoldable|pub) +)*([a-z][^\s:({]*) *:", told(text))


# Names that the check itself makes, which proofs define under the same name.
MADE = re.compile(r"(?:invariant|decreases)-|.*-(?:claims|below|at|Inv-loop|μ-loop)$")


def main():
    texts = {}
    whole = set()
    for path in files():
        with open(path, encoding="utf-8") as file:
            texts[path] = file.read()
        if path.endswith(".antt"):
            texts[path] = LEMMAS.sub(lambda m: m.group(1).replace("_", "-"), texts[path])
            whole |= {n for n in fields(texts[path]) if not (MADE.match(n) and "/proofs/" in path and path.endswith("Proof.antt"))}
    turned = {}
    taken = {w for path, text in texts.items() if path.endswith(".antt") for w in declared(text)}

    def name(word):
        if word in OTHER:
            new = OTHER[word]
        elif word in whole:
            new = "_".join(turn_part(p) for p in word.split("-"))
        else:
            new = "-".join(turn_part(p) for p in word.split("-"))
        if new != word:
            turned[word] = new
        return new

    def piece(found):
        word = found.group(0)
        if word[0] == '"' or word[0] == "'" or word.startswith("b'"):
            return word
        return name(word)

    done = {path: PIECES.sub(piece, text) for path, text in texts.items()}
    together = collections.defaultdict(set)
    for old, new in turned.items():
        together[new].add(old)
    for new in sorted(set(turned.values()) & taken):
        print(f"is there: {new}", file=sys.stderr)
    both = {new: olds for new, olds in together.items() if len(olds) > 1}
    if both:
        for new, olds in sorted(both.items()):
            print(f"fall together: {' '.join(sorted(olds))} -> {new}")
        sys.exit(1)
    for path, text in done.items():
        if text != texts[path] or LEMMAS.search(text):
            with open(path, "w", encoding="utf-8") as file:
                file.write(text)

    def cited(found):
        return re.sub(r"[^\W\d][\w'-]*", lambda m: turned.get(m.group(0), m.group(0)), found.group(0))

    for path in pages():
        with open(path, encoding="utf-8") as file:
            text = file.read()
        new = TICKS.sub(cited, text)
        if new != text:
            with open(path, "w", encoding="utf-8") as file:
                file.write(new)
    for old, new in sorted(turned.items()):
        print(f"{old} {new}")


if __name__ == "__main__":
    main()
