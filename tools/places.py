#!/usr/bin/env python3
"""places.py [POINT]: lists the places in crates/*/src that docs/DESIGN-PASS.md counts, one a line, and their number for each point.

1  enums that have the shape of Option or Result, structs with a flag beside the values that it rules, and functions that answer a number for a refusal
2  functions of one crate whose bodies differ only in names and numbers
3  loops that count an index by hand
4  equality, order, copying and conversion written by hand: functions named same, starts, is_below, clear, put_bytes, least, from-like conversions
5  requires clauses that stand, word for word, in three or more functions
6  arrays with a length or a count beside them, and parallel arrays
7  switches on which step to run: functions that compare a word with one text after another
8  proof files of answers, and answers in them
"""
import collections
import glob
import re
import sys

FLAGS = {"ok", "found", "good", "known", "busy", "settled", "near", "more", "begun", "versioned", "keyed", "dangling", "cycle"}


def sources():
    for name in sorted(glob.glob("crates/*/src/**/*.rt", recursive=True)):
        with open(name, encoding="utf-8") as file:
            yield name, file.read()


def bare(text):
    return re.sub(r"//[^\n]*", "", text)


def items(text, word):
    """Each `word NAME { .. }` or `word NAME(..) .. { .. }` with its body."""
    for it in re.finditer(rf"(?m)^ *(?:pub )?{word} (\w+)", text):
        start = text.find("{", it.end())
        if word == "fn":
            # the body is the block that begins a line, or that ends the signature where no clause follows
            here = re.compile(r"(?m)^ *\{$|\{$").search(text, it.end())
            while here and re.match(r" *(requires|ensures|ghost)\b", text[text.rfind("\n", 0, here.start()) + 1:here.start() + 1]):
                here = re.compile(r"(?m)^ *\{$|\{$").search(text, here.end())
            if not here:
                continue
            start = here.end() - 1
        if start < 0:
            continue
        depth, at = 0, start
        while at < len(text):
            depth += {"{": 1, "}": -1}.get(text[at], 0)
            at += 1
            if depth == 0:
                break
        yield it.group(1), text[it.start():start], text[start:at]


def point1():
    for name, text in sources():
        text = bare(text)
        for enum, _, body in items(text, "enum"):
            variants = re.findall(r"(?m)^\s*(\w+)(\([^)]*\))?,", body)
            plain = [v for v, held in variants if not held]
            holding = [v for v, held in variants if held]
            refusing = [v for v in holding if v in ("Refused", "Unwritable")]
            if (holding and plain) or refusing:
                yield f"{name}: enum {enum} {{{', '.join(v + h for v, h in variants)}}}"
        for struct, _, body in items(text, "struct"):
            fields = re.findall(r"(\w+): ([^,\n]+),", body)
            flags = [f for f, kind in fields if (kind == "bool" and f in FLAGS) or (kind == "u8" and f in ("stop", "refusal"))]
            if flags and len(fields) > 1:
                yield f"{name}: struct {struct} with {', '.join(flags)}"
        for fn, head, body in items(text, "fn"):
            if re.search(r"-> u8\s", head) and re.search(r"(?m)^\s+(return )?(0|1|1[0-9]|2[0-8])(;|,)?$|refus", body) and re.search(r"refus|barr|fit|tangle|fault|unfit", fn):
                yield f"{name}: fn {fn} answers a number for a refusal"


def point2():
    for crate in sorted(glob.glob("crates/*")):
        shapes = collections.defaultdict(list)
        for name in sorted(glob.glob(f"{crate}/src/**/*.rt", recursive=True)):
            with open(name, encoding="utf-8") as file:
                text = bare(file.read())
            for fn, _, body in items(text, "fn"):
                tokens = re.findall(r"\w+|\S", body)
                if len(tokens) < 30:
                    continue
                keep = {"while", "for", "if", "else", "match", "return", "let", "mut", "loop", "in", "true", "false", "as"}
                shape = " ".join(it if it in keep or not re.match(r"\w", it) else "_" for it in tokens)
                shapes[shape].append(f"{name}: {fn}")
        for them in shapes.values():
            if len(them) > 1:
                yield " ~ ".join(them)


def point3():
    for name, text in sources():
        text = bare(text)
        for it in re.finditer(r"(?m)^( *)(?:'\w+: )?while (.*) \{\n((?:\1 +.*\n|\n)*?)\1\}", text):
            test, body = it.group(2), it.group(3)
            for v in re.findall(r"\b[a-z_]\w*\b", test):
                if re.search(rf"(?m)^ *{v} (\+|-)= 1;$", body):
                    yield f"{name}:{text.count(chr(10), 0, it.start()) + 1}: while {test}"
                    break
        for it in re.finditer(r"(?m)^( *)(?:let \w+ = )?(?:'\w+: )?loop \{\n((?:\1 +.*\n|\n)*?)\1\}", text):
            if re.search(r"(?m)^ {%d}\w+ (\+|-)= 1;$" % (len(it.group(1)) + 4), it.group(2)):
                yield f"{name}:{text.count(chr(10), 0, it.start()) + 1}: loop"


def point4():
    by_hand = {"same", "starts", "leads", "is_below", "clear", "put_bytes", "least", "narrow", "size", "kind_first", "kind_second", "is_same_tag", "is_used", "default", "wide",
               "without_cursor", "without_rule", "is_between"}
    for name, text in sources():
        for fn, _, _ in items(bare(text), "fn"):
            if fn in by_hand:
                yield f"{name}: fn {fn}"


def point5():
    where = collections.defaultdict(set)
    for name, text in sources():
        for fn, head, _ in items(bare(text), "fn"):
            for clause in re.findall(r"requires(?: \w+)? \{ (.*) \}", head):
                where[clause].add(f"{name}: {fn}")
    for clause, them in sorted(where.items(), key=lambda it: -len(it[1])):
        if len(them) >= 3:
            yield f"{len(them)} functions: {clause}"


def point6():
    for name, text in sources():
        text = bare(text)
        for struct, _, body in items(text, "struct"):
            arrays = re.findall(r"(\w+): \[[^\]]*; \w+\]", body)
            if arrays and (len(arrays) > 1 or re.search(r"\b(count|len)\b", body)):
                yield f"{name}: struct {struct}: {', '.join(arrays)}"
        for fn, _, body in items(text, "fn"):
            arrays = re.findall(r"let mut (\w+)(?:: \[\w+; [^\]]*\])? = \[[^\]]*; [^\]]*\];", body)
            if len(arrays) > 1:
                yield f"{name}: fn {fn}: {', '.join(arrays)}"


def point7():
    for name, text in sources():
        for fn, _, body in items(bare(text), "fn"):
            if len(re.findall(r"if byte_slices::same\(\w+, b\"", body)) > 2:
                yield f"{name}: fn {fn}"


def point8():
    files = glob.glob("crates/*/proofs/**/Answers.antt", recursive=True)
    answers = sum(len(re.findall(r"(?m)^(?:pub )?[\w-]+ : goal\.", open(it, encoding="utf-8").read())) for it in files)
    yield f"{len(files)} files, {answers} answers"


POINTS = [point1, point2, point3, point4, point5, point6, point7, point8]
if __name__ == "__main__":
    for at, point in enumerate(POINTS, 1):
        found = list(point())
        if len(sys.argv) < 2:
            print(at, len(found) if at != 8 else found[0])
        elif sys.argv[1] == str(at):
            print("\n".join(found))
