#!/usr/bin/env python3
"""Brings the repository's own definitions and lemmas to the spelling of today's Rattle: functions, lemmas, fields and constructors in snake case,
types in camel case. Run once, after /opt/rattle/port/port.py.

usage: python3 tools/snake_names.py [--list]      at the top of the repository; --list only prints what it would rename, and the names that fall together

It goes by words of .antt and .rt files and of must-fail edits. A word is turned where it begins with a small letter and has a capital inside
(`lengthField` becomes `length_field`), part by part between dashes. Strings and chars stay, and so do functions of src/, which have no capitals.
A function into `Type` whose name is small gets a capital (listed in TYPES).
"""
import os
import re
import sys

WORD = re.compile(r"[^\W\d][\w'?₀-₉-]*", re.UNICODE)
CAMEL = re.compile(r"[a-z][A-Za-z0-9_'?₀-₉]*[A-Z]")

# functions into Type with a small name, and names that need another spelling than the rule gives
SPECIAL = {"sameSq": "SameSq"}

# lemmas of proofs/ whose name a definition of specs/ gets: they end in `_lem`, in the file that declares them and in those that import them from it
LEMMAS = [
    ("binary_parts", "Both", "both_at"), ("binary_laws", "Apart", "but_last"), ("binary_parts", "Closed", "but_last"),
    ("carry_laws", "Kept", "carried_from"), ("catalogue_entries", "Written", "entry_length"), ("catalogue_entries", "Written", "first_entry"),
    ("program_ids", "Ids", "ids_at"), ("prune_laws", "Prunes", "in_use"), ("record_parser", "Step", "no_keys"), ("find", "OwnCatalogue", "no_keys"),
    ("read_admission", "programs_of/Proof", "no_program"), ("record_kind", "kind_of/Proof", "no_program"), ("record", "Keys/head/Proof", "no_program"),
    ("field", "value/Taken", "no_value"), ("catalogue_lookup", "Answers", "no_value"), ("catalogue_lookup", "field_from/Proof", "no_value"),
    ("prune_laws", "Prunes", "no_value"), ("catalogue_lookup", "Answers", "no_key"), ("catalogue_lookup", "key_of/Proof", "no_key"),
    ("find", "key_place/Proof", "no_key"), ("merge_references", "Names", "same_from"), ("tidy_laws", "Once", "settled_on"),
    ("tidy_laws", "Length", "settled_on"), ("merge_laws", "Rewritten", "with_nothing"), ("fault_laws", "Law", "all_read"),
]


def snake_part(part):
    if not CAMEL.match(part) or "_" in part and re.search(r"_[A-Z]", part) or part.startswith("b'"):
        return part
    part = re.sub(r"([a-z0-9'₀-₉])([A-Z])", r"\1_\2", part)
    part = re.sub(r"([A-Z])([A-Z][a-z])", r"\1_\2", part)
    return part.lower() if not re.search(r"[^\x00-\x7f]", part) else "".join(c.lower() if "A" <= c <= "Z" else c for c in part)


def turned(word):
    if word in SPECIAL:
        return SPECIAL[word]
    return "-".join(SPECIAL.get(p, snake_part(p)) for p in word.split("-"))


def files(root):
    for folder, dirs, names in os.walk(os.path.join(root, "crates")):
        dirs[:] = sorted(d for d in dirs if d not in ("out", "data"))
        for n in sorted(names):
            if n.endswith((".antt", ".rt", ".edit")):
                yield os.path.join(folder, n)


STRING = re.compile(r'b?"(?:\\.|[^"\\])*"|b?\'(?:\\.[^\']*|[^\'\\])\'')


def turn_text(text, path):
    def words(t):
        return WORD.sub(lambda m: turned(m.group(0)), t)

    if True:
        out, at = [], 0
        for line in text.splitlines(keepends=True):
            if path.endswith(".rt") and line.lstrip().startswith("//"):
                out.append(words(line))
                continue
            at = 0
            for m in STRING.finditer(line):
                out.append(words(line[at:m.start()]))
                out.append(m.group(0))
                at = m.end()
            out.append(words(line[at:]))
        return "".join(out)
    return words(text)


def lemmas(text, path):
    """The lemmas of LEMMAS in a file that declares or imports them."""
    for crate, module, name in LEMMAS:
        dotted = f"Rattle.{crate}.proofs.{module.replace('/', '.')}"
        own = path == f"./crates/{crate}/proofs/{module}.antt"
        if own or path.endswith(".antt") and re.search(r"use " + re.escape(dotted) + r"\.\{[^}]*(?<![\w'.-])" + name + r"(?![\w'-])", text):
            text = re.sub(r"(?<![\w'.-])" + name + r"(?![\w'-])", name + "_lem", text)
    return text


def main():
    only_list = "--list" in sys.argv
    seen, olds = {}, set()
    texts = {}
    for p in files("."):
        with open(p, encoding="utf-8") as f:
            texts[p] = f.read()
    for p, t in texts.items():
        for m in WORD.finditer(t):
            w = m.group(0)
            olds.add(w)
            n = turned(w)
            if n != w:
                seen.setdefault(n, set()).add(w)
    if only_list:
        for n, ws in sorted(seen.items()):
            mark = ""
            if n in olds:
                mark += "  ALREADY"
            if len(ws) > 1:
                mark += "  TOGETHER"
            print(n, sorted(ws), mark)
        return
    changed = 0
    for p, t in texts.items():
        n = lemmas(t, p)
        n = turn_text(n, p)
        if n != t:
            with open(p, "w", encoding="utf-8") as f:
                f.write(n)
            changed += 1
    print(f"{changed} files changed, {len(seen)} names")


if __name__ == "__main__":
    main()
