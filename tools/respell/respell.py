#!/usr/bin/env python3
"""Spells the repository's own definitions and lemmas in snake case, as today's Rattle spells its words.

usage: respell.py names FOLDER    writes names.tsv beside this script: a row for each name that FOLDER/crates declares, old, tab, new
       respell.py turn FOLDER     turns those names in FOLDER/crates: .rt, .antt, and the texts of must-fail edits

A camel hump begins a word, and a dash ends one: groundNumber is ground_number, refuse-passed is refuse_passed. Types, facts
and modules keep their capitals. Where a lemma would get its definition's name it gets _lem at the end. A label that Rattle
makes for a function's proof stays.
"""
import collections
import os
import re
import sys

TABLE = os.path.join(os.path.dirname(os.path.realpath(__file__)), "names.tsv")
WORD = r"[^\s(){}.;,@\"«»]+"
DECLARED = re.compile(
    r"(?m)^ *(?:(?:abbrev|unfoldable|pub)\s+)*(" + WORD + r")(?: (?:\{[^{}\n]*\}|\([^()\n]*\)))* :(?= )\s*([^\s(]*)"
)
MADE = ("tie.", "goal.")


def files(root, *ends):
    for folder, dirs, names in os.walk(os.path.join(root, "crates")):
        dirs[:] = sorted(d for d in dirs if d != "out")
        yield from (os.path.join(folder, n) for n in sorted(names) if n.endswith(ends))


def of_function(path):
    """Whether the file is of one function's proof."""
    parts = path.split("/crates/")[-1].split("/")
    return parts[1] == "proofs" and len(parts) > 3


def code(text):
    return re.sub(r"(?m)(?<![^\s(){}.;,])--.*$", "", text)


def snake(name):
    return re.sub(r"(?<=[a-z0-9])[A-Z]", lambda m: "_" + m[0].lower(), name).replace("-", "_")


def turns(name):
    if name[0].isupper():
        return "-" in name
    return "-" in name or re.search(r"[a-z0-9][A-Z]", name)


def names(root):
    declared = collections.defaultdict(set)
    for path in files(root, ".antt"):
        with open(path, encoding="utf-8") as f:
            text = code(f.read())
        for m in DECLARED.finditer(text):
            if not (of_function(path) and m[2].startswith(MADE)):
                declared[m[1]].add(os.path.relpath(path, root))
    taken = collections.defaultdict(set)
    for name in declared:
        taken[snake(name)].add(name)
    rows = []
    for name in sorted(declared):
        if not turns(name):
            continue
        new = snake(name) if name[0].islower() or not name[0].isalpha() else name.replace("-", "")
        others = taken[snake(name)] - {name}
        definition = any("/specs/" in p for o in others for p in declared[o])
        if others and "-" in name and definition:
            new += "_lem"
        rows.append((name, new))
    with open(TABLE, "w", encoding="utf-8") as f:
        f.writelines(f"{a}\t{b}\n" for a, b in rows)


def table():
    with open(TABLE, encoding="utf-8") as f:
        return dict(line.rstrip("\n").split("\t") for line in f)


def antt(text, rows, labels):
    out, at = [], 0
    for m in re.finditer(r"(?m)(?<![^\s(){}.;,])--.*$", text):
        out.append(turn(text[at:m.start()], rows, labels))
        out.append(comment(m[0], rows))
        at = m.end()
    out.append(turn(text[at:], rows, labels))
    return "".join(out)


def turn(piece, rows, labels):
    def word(m):
        w = m[0]
        new = rows.get(w)
        if new is None:
            return w
        if labels is not None and "-" in w:
            before = piece[max(0, m.start() - 8):m.start()]
            if w in labels or re.search(r"(?<![^\s(){};,])(?:c|l|tie|goal)\.$", before):
                return w
        return new

    return re.sub(WORD, word, piece)


def comment(text, rows):
    """In a comment a camel word turns, and a dashed one between backquotes."""
    text = re.sub(r"(?<![\w-])[a-z][a-z0-9]*(?:[A-Z][A-Za-z0-9]*)+(?![\w-])", lambda m: rows.get(m[0], m[0]), text)
    return re.sub(r"`([^`\s]+)`", lambda m: "`" + rows.get(m[1], m[1]) + "`", text)


def rt(text, rows):
    """Ghost imports turn whole; elsewhere a camel word, which is none of Rust's."""
    text = re.sub(r"ghost use [^;]*;", lambda m: turn(m[0], rows, None), text)
    text = re.sub(r"(?<![\w-])[a-z][a-z0-9]*(?:[A-Z][A-Za-z0-9]*)+(?![\w-])", lambda m: rows.get(m[0], m[0]), text)
    return text


def edit(text, rows):
    """The old and new texts of an edit, as its file is read."""
    out, antt_file = [], False
    for line in text.splitlines(keepends=True):
        if line.startswith("file: "):
            antt_file = line.strip().endswith(".antt")
        elif line.startswith(("old: ", "new: ")):
            body = line[5:]
            line = line[:5] + (turn(body, rows, None) if antt_file else rt(body, rows))
        out.append(line)
    return "".join(out)


def reason(text, path):
    """`ground` outside comments; of an edit in its texts alone."""
    mark = "--" if path.endswith(".antt") else "//"
    out = []
    for line in text.split("\n"):
        if path.endswith(".edit"):
            code, rest = (line, "") if line.startswith(("old: ", "new: ")) else ("", line)
        else:
            code, found, rest = line.partition(mark)
            rest = found + rest
        out.append(re.sub(r"(?<![\w'-])ground(?![\w'-])", "reason", code) + rest)
    text = "\n".join(out)
    if re.search(r"\bas reason\b", text):
        text = re.sub(r"\bas reason\b", "as grounds", text)
        text = re.sub(r"\breason(?=\.[A-Z])", "grounds", text)
    return text


# A module's other name in a file, which would read as a definition that the file brings in.
ALIASES = {"engine/specs/Ready.antt": ("record_of", "records")}


def turn_all(root):
    rows = table()
    for path in files(root, ".antt", ".rt", ".edit"):
        with open(path, encoding="utf-8") as f:
            text = f.read()
        alias = ALIASES.get(path.split("/crates/")[-1])
        if alias:
            text = re.sub(rf"\b{alias[0]}\b", alias[1], text)
        if path.endswith(".antt"):
            labels = None
            if of_function(path):
                labels = {m[1] for m in DECLARED.finditer(text) if m[2].startswith(MADE)}
            new = antt(text, rows, labels)
        elif path.endswith(".rt"):
            new = rt(text, rows)
        else:
            new = edit(text, rows)
        new = reason(new, path)
        if new != text:
            with open(path, "w", encoding="utf-8") as f:
                f.write(new)


if __name__ == "__main__":
    {"names": names, "turn": turn_all}[sys.argv[1]](sys.argv[2])
