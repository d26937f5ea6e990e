#!/usr/bin/env python3
"""Brings the names of the repository's own definitions, lemmas, fields and constructors to the spelling of today's Rattle.

usage: python3 tools/respell.py [--table]     at the top of the repository, once, right after the kit's port.py

A word is in snake case; types and facts keep their capitals; a dash stays only between two names, as in length-put. Files of crates/
turn: .antt whole, of .rt files the clauses and what 'ghost use' brings, .edit files where they quote either; a comment's words in
small and capital letters, and its words between backquotes. Pages turn between backquotes. Then rt fmt lays out each crate. --table
prints old and new and writes nothing. Strings, functions of src/ and exported names keep their spelling.
"""

import os
import re
import subprocess
import sys

WORD = re.compile(r'[^\s(){}.;,@"«»`]+')
DECLARED = re.compile(r"^( {0,4})((?:(?:pub|abbrev|unfoldable) )*)(record |data )?([^\s(){}.;,@\"«»:`]+)((?: [({][^)}]*[)}])*)? : (.*)$")
CAMEL = re.compile(r"(?<=[a-z0-9])(?=[A-Z])|(?<=[A-Z])(?=[A-Z][a-z])")

# Names of the library that lemmas are named after, as they read today.
LIBRARY = {"length", "take", "drop", "append", "map", "replicate", "set", "get_or", "suc", "put"}

# Words that the rule would get wrong: abbreviations in capitals, and what port.py made of a name that it took for the library's.
FIXED = {
    "get_d_part": "get_or-part",
    "getD-put-before": "get_or-put_before",
    "getD-put-after": "get_or-put_after",
    "getD-put-inside": "get_or-put_inside",
    "getD-wordsOf": "get_or-words_of",
    "getD-zeros": "get_or-zeros",
    "get_d_map": "get_or-map",
    "labels-A": "labels_a",
    "labels-B": "labels_b",
    "mask-0E74": "mask_0e74",
    # Names that would fall together: a lemma that has its function's name then takes _lem.
    "goesOn": "going_on",
    "in-front": "in_front_lem",
    "joined_by": "joined_by_lem",
    "moved_on": "moved_on_lem",
    "not_carried": "not_carried_lem",
    "open_of": "open_of_lem",
    "read_off": "read_off_lem",
    "same_bool": "same_bool_lem",
    "the_end": "the_end_lem",
    "well-formed": "well_formed_lem",
    "set-mode": "setting_modes",
}

# Names that a file gives what it imports, or to a value of its own.
LOCAL = ("atLast", "startReader", "fitReader", "noText", "writtenFor", "startedReader", "onesOf", "declaresOf", "comparedOf", "raisedPlace")


def crates(root):
    top = os.path.join(root, "crates")
    for folder, dirs, files in os.walk(top):
        dirs[:] = sorted(d for d in dirs if d != "out")
        for f in sorted(files):
            yield os.path.join(folder, f)


def of_a_function(path):
    """A file in proofs/FUNCTION/: what it declares are answers to goals, which Rattle names."""
    parts = path.split(os.sep)
    return "proofs" in parts and len(parts) - parts.index("proofs") > 2


def declared(root):
    """The names that files of specs/ and proofs/ declare, those of specs/ apart."""
    named, all_of = set(), {}
    for p in crates(root):
        if not p.endswith(".antt"):
            continue
        with open(p, encoding="utf-8") as f:
            text = f.read()
        for line in text.split("\n"):
            m = DECLARED.match(line)
            if not m or line.lstrip().startswith(("--", "let ", "(", "λ", "∙", "|")):
                continue
            if of_a_function(p) and (m[6].startswith("tie.") or "statement" in m[6]):
                continue
            name = m[4]
            all_of.setdefault(name, p)
            if "/specs/" in p:
                named.add(name)
    return named, all_of


def snake(word):
    if word in LIBRARY or not word or word[0].isupper() or word.isupper():
        return word
    return "_".join(part.lower() for part in CAMEL.split(word))


def spelled(name, named):
    if name in FIXED:
        return FIXED[name]
    if "◌" in name or not re.search(r"[A-Za-z]", name):
        return name
    parts = name.split("-")
    if parts == [name]:
        return snake(name)
    out = snake(parts[0])
    for a, b in zip(parts, parts[1:]):
        both = all(x in named or snake(x) in named or x in LIBRARY for x in (a, b))
        if "/specs/" in HERE.get(name, ""):
            both = False
        out += ("-" if both else "_") + snake(b)
    return out


HERE = {}


def table(root):
    named, all_of = declared(root)
    HERE.update(all_of)
    rows = {}
    for name in sorted(all_of):
        new = spelled(name, named)
        if new != name:
            rows[name] = new
    for name in LOCAL:
        rows[name] = snake(name)
    return rows, all_of


COMMENT = re.compile(r"--[^\n]*")
QUOTED = re.compile(r"`[^`\n]*`")


def words(text, rows):
    """Each word that is a row, as a word of its own or behind a dot."""
    return WORD.sub(lambda m: rows.get(m[0], m[0]), text)


def comment(text, rows):
    camel = {a: b for a, b in rows.items() if re.search(r"[a-z0-9][A-Z]", a)}
    text = QUOTED.sub(lambda m: words(m[0], rows), text)
    return words(text, camel)


def antt(text, rows):
    out, at = [], 0
    for m in re.finditer(r'(?<![^\s(){}.;,@])--[^\n]*|"[^"\n]*"', text):
        out.append(words(text[at:m.start()], rows))
        out.append(comment(m[0], rows) if m[0].startswith("--") else m[0])
        at = m.end()
    out.append(words(text[at:], rows))
    return "".join(out)


# Of Rust, what is neither code nor a string: 'ghost use' items, clauses and comments.
RUST = re.compile(r'//[^\n]*|"(?:\\.|[^"\\\n])*"|ghost\s+use\b[^;]*;|(?:requires|ensures)\s*\*?\s*(?:\w+\s*)?\{')


def closing(text, at):
    deep = 1
    while deep:
        deep += {"{": 1, "}": -1}.get(text[at], 0)
        at += 1
    return at


def rust(text, rows):
    out, at = [], 0
    while m := RUST.search(text, at):
        out.append(text[at:m.start()])
        if m[0].startswith("//"):
            out.append(comment(m[0], rows))
            at = m.end()
        elif m[0].startswith('"'):
            out.append(m[0])
            at = m.end()
        elif m[0].startswith("ghost"):
            out.append(words(m[0], rows))
            at = m.end()
        else:
            end = closing(text, m.end())
            out.append(m[0] + words(text[m.end():end], rows))
            at = end
    out.append(text[at:])
    return "".join(out)


def edit(text, rows):
    """An edit quotes lines of one file or another: those of .antt files turn whole, those of .rt files where they are clauses."""
    out, of = [], ""
    for line in text.split("\n"):
        if line.startswith("file:"):
            of = line
        elif line.startswith(("old:", "new:")):
            if ".rt" not in of:
                line = line[:4] + antt(line[4:], rows)
            elif re.search(r"\b(requires|ensures|ghost)\b", line):
                line = line[:4] + words(line[4:], rows)
        out.append(line)
    return "\n".join(out)


def page(text, rows):
    return QUOTED.sub(lambda m: words(m[0], rows), text)


def clashes(root, rows, all_of):
    """New names that the repository had already, or that two old names share."""
    seen = {}
    for old, new in rows.items():
        seen.setdefault(new, []).append(old)
    for new, olds in sorted(seen.items()):
        if len(olds) > 1 or new in all_of:
            print("falls together:", new, "of", ", ".join(olds), "(and itself)" if new in all_of and new not in rows else "")


def main(argv):
    root = "."
    rows, all_of = table(root)
    if argv == ["--table"]:
        for old, new in sorted(rows.items()):
            print(old, new, sep="\t")
        clashes(root, rows, all_of)
        return
    paths = [(p, {"antt": antt, "rt": rust, "edit": edit}.get(p.rsplit(".", 1)[-1])) for p in crates(root)]
    paths += [(os.path.join(d, f), page) for d in (".", "docs") for f in sorted(os.listdir(d)) if f.endswith(".md")]
    for p, turn in paths:
        if turn:
            with open(p, encoding="utf-8") as f:
                old = f.read()
            new = turn(old, rows)
            if new != old:
                with open(p, "w", encoding="utf-8") as f:
                    f.write(new)
    for c in sorted(os.listdir(os.path.join(root, "crates"))):
        if os.path.isdir(os.path.join(root, "crates", c, "src")):
            subprocess.run(["rt", "fmt"], cwd=os.path.join(root, "crates", c), stdout=subprocess.DEVNULL, check=False)


if __name__ == "__main__":
    main(sys.argv[1:])
