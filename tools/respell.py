#!/usr/bin/env python3
"""Brings what port.py leaves to today's spelling: the repository's own definitions and lemmas to snake case, by the table respelled.tsv
beside this script, the texts of must-fail edits, and the head and the clauses of sources.

usage: tools/respell.py [FOLDER]     in a checkout in which port.py has run, once

A row of the table has an old name, a new one, and where it is written anew: `everywhere`, or `name`, which leaves out what follows a
dot and the parts of a path. Proofs, specs, clauses, must-fail edits and the words in back quotes of documents are turned. Functions
of src/, exported names, strings, inputs and outputs keep theirs. In a source the ghost value `a`, which an equation of a `requires`
fixes to the four lent slices, becomes a `let` of each clause, as the kit's let_ghosts.py writes it; plain structs are `Copy`, as every
struct was; and the root file has the line that lets the check try its tactics. It is run once: a second run would take names that the
first one made for older ones.
"""

import glob
import os
import re
import sys

HERE = os.path.dirname(os.path.abspath(__file__))
TOKEN = re.compile(r"[^\s(){}.;,@\"«»\[\]\\`]+")


def table():
    with open(os.path.join(HERE, "respelled.tsv"), encoding="utf-8") as it:
        rows = [line.rstrip("\n").split("\t") for line in it]
    return {old: new for old, new, where in rows if where == "everywhere"}, {old: new for old, new, where in rows if where == "name"}


def turned(text, everywhere, name):
    def one(m):
        word = m.group(0)
        if word in everywhere:
            return everywhere[word]
        dotted = m.start() > 0 and text[m.start() - 1] == "."
        if not dotted and word in name:
            return name[word]
        return word

    return TOKEN.sub(one, text)


def comments_apart(text, mark, code, comment):
    out = []
    for line in text.split("\n"):
        at = line.find(mark)
        out.append(code(line) if at < 0 else code(line[:at]) + comment(line[at:]))
    return "\n".join(out)


SLICES = "arrays lengths.now bytes.now superblocks.now blocks.now"
GHOST = re.compile(r"    ghost a: \{ Arrays \}\n    requires \w+ \{ " + re.escape(SLICES) + r" ≡ a \}\n((?:    [^\n]*\n)+?)(?=\{\n)")
CLAUSE = re.compile(r"^    (requires|ensures)(?: \w+)? \{ (?=(?:(?!^    (?:requires|ensures)\b).)*?(?<![\w.'])a(?![\w']))", re.M | re.S)


def source(text):
    """The clauses and the head of a source."""
    let = f"let a : Arrays = {SLICES} in "
    text = GHOST.sub(lambda m: CLAUSE.sub(lambda c: f"    {c.group(1)} {{ {let}", m.group(1)), text)
    text = text.replace("    requires ready { let a : Arrays", "    requires { let a : Arrays")
    return re.sub(r"(?m)^#\[derive\(Drop\)\]$", "#[derive(Clone, Copy)]", text)


def headed(text):
    """A root file with the line that lets the check try its tactics, behind its first comment."""
    if "#![tactic(auto)]" in text:
        return text
    lines = text.split("\n")
    at = next(i for i, line in enumerate(lines) if not line.startswith("//"))
    return "\n".join(lines[:at] + ["#![tactic(auto)]", ""] + lines[at:])


def edit(text):
    """The text of an edit that speaks antt in the older spelling."""
    text = re.sub(r"now \((\w+) \.entry\)", r"\1.now", text)
    text = re.sub(r"\((\w+\.now)\)", r"\1", text)
    for old, new in (("getD", "get_or"), ("countOf", "count_of"), ("negℤ", "neg_ℤ"), ("List·Memᴰ", "Memᴰ"), ("·specs.specs", ".specs"), ("Rattle·", "Rattle.")):
        text = text.replace(old, new)
    text = re.sub(r"([\w)»\]]) \.([A-Za-z«])", r"\1.\2", text)
    text = re.sub(r"\((\w+(?:\.\w+)+)\)", r"\1", text)
    text = re.sub(r"(?<![\w◌])_([^\w\s,}{]+)_(?!\w)", r"◌\1◌", text)
    for _ in range(4):
        text = re.sub(r"\b([a-z][a-z0-9_]*)([A-Z])(?=[a-z])", lambda m: m.group(1) + "_" + m.group(2).lower(), text)
    return text


def main(root):
    everywhere, name = table()
    camel = {old: new for old, new in everywhere.items() if re.search("[a-z0-9][A-Z]", old)}
    code = lambda it: turned(it, everywhere, name)
    words = lambda it: turned(it, camel, {})
    # what a comment or a document has in back quotes
    quoted = lambda it: re.sub(r"`[^`\n]*`", lambda m: turned(m.group(0), everywhere, name), it)
    said = lambda it: words(quoted(it))
    for path in sorted(glob.glob(f"{root}/**/*", recursive=True)):
        inside = os.path.relpath(path, root)
        if not os.path.isfile(path) or "/out/" in path or "/target/" in path:
            continue
        if inside.startswith("crates/") and path.endswith(".antt"):
            how = lambda it: comments_apart(it, "--", code, said)
        elif inside.startswith("crates/") and path.endswith(".rt"):
            root_file = path.endswith(("/src/lib.rt", "/src/main.rt"))
            how = lambda it: (headed if root_file else str)(source(comments_apart(it, "//", words, said)))
        elif inside.startswith("crates/") and path.endswith(".edit"):
            antt = "file: specs/" in open(path, encoding="utf-8").read()
            turn = lambda line: line[:5] + (edit(code(line[5:])) if antt or " ≡ " in line or "now (" in line or "getD" in line else code(line[5:]))
            how = lambda it: "\n".join(turn(l) if l[:5] in ("old: ", "new: ") else said(l) for l in it.split("\n"))
        elif path.endswith(".md") and not inside.startswith("docs/PORT"):
            how = quoted
        else:
            continue
        with open(path, encoding="utf-8", newline="") as it:
            text = it.read()
        new = how(text)
        if new != text:
            with open(path, "w", encoding="utf-8", newline="") as it:
                it.write(new)


if __name__ == "__main__":
    main(os.path.abspath(sys.argv[1] if len(sys.argv) > 1 else "."))
