#!/usr/bin/env python3
"""tools/respell.py [FILE..]: brings the names of this repository's own definitions, lemmas and fields to today's spelling, by the table respell.tsv beside it (old, a tab, new).

Definitions are in snake case, as `label_byte` for `labelByte`; so are lemmas, as `all_at` for `all-at`, and a dash stays where a lemma's name joins the names of two definitions, as
`length-insert_behind`. A lemma whose name would fall together with a definition's ends with `_lem`. It ran once, after port.py, over crates/. With names of files it turns those: of a page the
code spans, of an edit all text. Names of functions of src/ stay.
"""
import glob
import os
import re
import sys

HERE = os.path.dirname(os.path.abspath(__file__))
TABLE = dict(row.rstrip("\n").split("\t") for row in open(os.path.join(HERE, "respell.tsv"), encoding="utf-8"))
TOKEN = re.compile(r"[^\s(){}.;,@\"«»`]+")
CLAUSE = re.compile(r"\b(?:requires|ensures|ghost)\b")
FUNCTIONS = set()
for source_file in glob.glob(os.path.join(os.path.dirname(HERE), "crates", "*", "src", "**", "*.rt"), recursive=True):
    FUNCTIONS.update(re.findall(r"\bfn (\w+)", open(source_file, encoding="utf-8").read()))
SPAN = re.compile(r"`[^`\n]*`")
CAMEL = re.compile(r"[a-z][A-Z]")


def words(text, steps=False):
    """`steps`: in a function's proof, where a name behind a dot may be a call's."""
    def turned(m):
        name = m.group(0)
        new = TABLE.get(name)
        if new is None:
            return name
        if "_" in name and "-" not in name:
            # a name that has today's spelling already: a path's part by this spelling is a module
            if text[m.start() - 1:m.start()] == "." or text[m.end():m.end() + 1] == ".":
                return name
        if steps and text[m.start() - 1:m.start()] == "." and name.replace("-", "_") in FUNCTIONS:
            return name
        return new
    return TOKEN.sub(turned, text)


def prose(text):
    text = SPAN.sub(lambda m: words(m.group(0)), text)
    return TOKEN.sub(lambda m: TABLE.get(m.group(0), m.group(0)) if CAMEL.search(m.group(0)) else m.group(0), text)


def proof(text, steps=False):
    out = []
    for line in text.split("\n"):
        at = 0 if line.startswith("--") else line.find(" --") + 1 or (len(line) if not line.lstrip().startswith("--") else 0)
        out.append(words(line[:at], steps) + prose(line[at:]))
    return "\n".join(out)


def ghost_regions(text):
    """The parts of a source file that are ghost: from a clause's word to its closing brace, and an import to its semicolon."""
    at = 0
    while True:
        m = CLAUSE.search(text, at)
        if not m:
            return
        line = text.rfind("\n", 0, m.start()) + 1
        if "//" in text[line:m.start()]:
            at = m.end()
            continue
        if re.match(r"ghost\s+use\b", text[m.start():]):
            end = text.index(";", m.end()) + 1
        else:
            end = text.index("{", m.end())
            depth = 0
            while True:
                depth += {"{": 1, "}": -1}.get(text[end], 0)
                end += 1
                if depth == 0:
                    break
        yield m.start(), end
        at = end


def source(text):
    out, at = [], 0
    comment = re.compile(r"//[^\n]*")
    for start, end in list(ghost_regions(text)) + [(len(text), len(text))]:
        out.append(comment.sub(lambda m: prose(m.group(0)), text[at:start]))
        out.append("\n".join(words(line) if not line.lstrip().startswith("//") else prose(line) for line in text[start:end].split("\n")))
        at = end
    return "".join(out)


def main():
    chosen = sys.argv[1:]
    if not chosen:
        chosen = [p for kind in ("antt", "rt") for p in glob.glob("crates/*/**/*." + kind, recursive=True) if "/out/" not in p]
    turned = 0
    for path in chosen:
        text = open(path, encoding="utf-8").read()
        by = proof if path.endswith(".antt") else source if path.endswith(".rt") else words if path.endswith(".edit") else lambda t: SPAN.sub(lambda m: words(m.group(0)), t)
        new = by(text, True) if path.endswith("/Proof.antt") else by(text)
        if new != text:
            turned += 1
            with open(path, "w", encoding="utf-8") as out:
                out.write(new)
    print("respell: %d files turned of %d" % (turned, len(chosen)))


main()
