#!/usr/bin/env python3
"""tools/places.py [--list] [POINT..]: the places of docs/DESIGN-PASS.md, counted in the text of crates/*/src.

1 enums of the shape of Option or Result, flags beside values, constants that number kinds, functions that answer a number for none
2 functions whose text is the same but for names and numbers
3 loops that count an index by hand
4 conversions, tests, copies and printing by functions of one's own where std has one
5 groups of parameters that three or more functions take, and facts that three or more contracts require
6 slices with a length beside them
7 matches that only choose the function to call, and last lines that several functions share
8 answers in proofs/F, and of these those that only call a search that the check makes by itself
A place that stays is found again; a comment `// Kept ..` above it, above its function or its type says why.
"""
import collections
import glob
import re
import sys

SOURCES = sorted(glob.glob("crates/*/src/*.rt"))
FUNCTION = re.compile(r"^ *(?:pub(?:\(crate\))? )?(?:extern \"C\" )?fn (\w+)", re.M)


def functions(text):
    """Each function: its name, where its text begins (with the comment above it), its signature with its clauses, its body."""
    for m in FUNCTION.finditer(text):
        at = m.start()
        above = text.rfind("\n\n", 0, at) + 2
        indent = len(m.group(0)) - len(m.group(0).lstrip())
        opening = text.find("\n" + " " * indent + "{", at)
        inline = text.find(" {\n", at)
        if opening < 0 or (0 <= inline < opening and "\n" not in text[at:inline]):
            opening = inline
        closing = text.find("\n" + " " * indent + "}", opening)
        yield m.group(1), above, at, text[at:opening], text[opening:closing + 2]


def clauseless(head):
    return re.split(r"\n\s*(?:ghost|requires|ensures)", head)[0]


def parameters(head):
    m = re.search(r"\((.*)\)", clauseless(head), re.S)
    return [p.strip() for p in re.split(r",(?![^<\[(]*[>\])])", m.group(1)) if ":" in p] if m else []


def bare(code):
    return re.sub(r"//.*", "", code)


def point1(name, file, head, body, out):
    result = re.search(r"-> (.*?)(?:\n|$)", clauseless(head))
    numbers = re.findall(r"\breturn (?:0|shown\.len\(\));", body)
    if result and result.group(1).strip() in ("u8", "usize", "i64", "u64") and numbers and not re.search(r"fn (answer|put|trial)_", head):
        out.append(name + ": a number for none")
    if result and result.group(1).strip() == "i64" and '"C"' not in head:
        out.append(name + ": a number for what became of it")


def types1(text, out):
    for m in re.finditer(r"enum (\w+)[^{]*\{(.*?)\n\}", text, re.S):
        variants = [v.strip() for v in re.sub(r"//.*", "", m.group(2)).split(",\n") if v.strip()]
        carrying = [v for v in variants if "(" in v]
        if len(variants) == 2 and carrying:
            out.append("enum " + m.group(1))
    for m in re.finditer(r"struct (\w+)[^{;]*\{(.*?)\n\}", text, re.S):
        for flag in re.findall(r"(\w+): bool,", m.group(2)):
            out.append("flag " + m.group(1) + "." + flag)
    for m in re.finditer(r"^(?:pub )?const (\w+): u8 = ", text, re.M):
        out.append("const " + m.group(1))


def loops(body):
    for m in re.finditer(r"^( *)while (.*?) \{\n(.*?)^\1\}", body, re.S | re.M):
        for step in re.findall(r"^\s*(\w+) [+-]= 1;", m.group(3), re.M):
            if re.search(r"\b%s\b" % step, m.group(2)):
                yield m.group(2)
                break


BY_HAND = [
    (r"\b(?:wide|wide_number|wide_place|narrow)\(", "conversion"),
    (r"\b(?:mark_of|accept_byte|level_byte)\(", "conversion"),
    (r"(?<![\w.])copy\(|\bmove_record\(|\bclear_from\(|\bshift_up\(|\bclear_rights\(", "copy"),
    (r"\b(?:both|either|same|both_of|is_set)\(", "test"),
    (r"\b(?:deeper|smaller|least|above|outer)\(", "order"),
]


def point4(name, body, out):
    for form, what in BY_HAND:
        for _ in re.findall(form, bare(body)):
            out.append(name + ": " + what)
    if re.search(r"-> bool", body):
        return
    returns = re.findall(r"return (true|false);", body)
    if returns and not re.search(r"\b(?:while|for|match|else \{\n\s*return)\b", body):
        out.append(name + ": a test by returns")


def main():
    wanted = [int(a) for a in sys.argv[1:] if a.isdigit()] or list(range(1, 9))
    found = collections.defaultdict(list)
    kept = 0
    skeletons = collections.defaultdict(list)
    groups = collections.defaultdict(set)
    facts = collections.defaultdict(set)
    endings = collections.defaultdict(list)
    for file in SOURCES:
        text = open(file, encoding="utf-8").read()
        here = file.split("/", 1)[1]
        kept += len(re.findall(r"// Kept\b", text))
        types = []
        types1(text, types)
        found[1] += [here + ": " + t for t in types]
        for name, above, at, head, body in functions(text):
            place = here + ": " + name
            out = []
            point1(name, file, head, body, out)
            found[1] += [here + ": " + t for t in out]
            words = re.findall(r"[A-Za-z_]\w*|\d+|b?'.'|b?\"[^\"]*\"|\S", bare(body))
            if len(words) > 16:
                keys = {"while", "for", "in", "if", "else", "return", "let", "mut", "match", "as", "true", "false"}
                skeleton = " ".join(w if w in keys or not re.match(r"[A-Za-z_0-9b'\"]", w) else "_" for w in words)
                skeletons[skeleton].append(place)
            found[3] += [place + ": while " + test for test in loops(body)]
            out = []
            point4(name, body, out)
            found[4] += [here + ": " + t for t in out]
            names = [p.split(":")[0].replace("mut ", "").strip() for p in parameters(head)]
            for size in (2, 3, 4):
                for i in range(len(names) - size + 1):
                    groups[(here.split("/")[0],) + tuple(names[i:i + size])].add(place)
            for clause in re.findall(r"requires(?: \w+)? \{(.*?)\}\n", head + "\n", re.S):
                for fact in re.split(r"\s×\s", clause):
                    facts[(here.split("/")[0], re.sub(r"[\s()]+", " ", fact).strip())].add(place)
            listed = parameters(head)
            for one, two in zip(listed, listed[1:]):
                if re.search(r"&(?:mut )?\[", one) and re.match(r"(n|m|k|count|size|len|used|held): usize$", two):
                    found[6].append(place + ": " + one + ", " + two)
            arms = re.search(r"match [\w.]+ \{\n((?:\s*[\w:|' ]+ => [\w:]+\(.*?\),\n){2,})\s*\}", body, re.S)
            if arms:
                found[7].append(place + ": a match that chooses a function")
            last = "\n".join(line.strip() for line in body.strip().splitlines()[-8:])
            ending = re.search(r"let need = .*?return Answer::Refused\(short\);", body, re.S)
            if ending:
                found[7].append(place + ": answers, and writes where there is room")
    for same in skeletons.values():
        if len(same) > 1:
            found[2] += same
    largest = {}
    for group, places in groups.items():
        if len(places) >= 3 and not any(set(group[1:]) < set(other[1:]) and group[0] == other[0] and len(groups[other]) >= len(places) for other in groups):
            largest[group] = places
    found[5] += [g[0] + ": parameters " + ", ".join(g[1:]) + ": %d functions" % len(p) for g, p in sorted(largest.items())]
    found[5] += [f[0] + ": required " + f[1] + ": %d functions" % len(p) for f, p in sorted(facts.items()) if len(p) >= 3]
    for file in sorted(glob.glob("crates/*/proofs/**/Answers.antt", recursive=True)):
        for m in re.finditer(r"^pub ([^\n]*?) : goal\.[^\n]*\n((?:unfolding[^\n]*\n)?)[^\n=]*=([^\n]*)\n(?=\n|\Z)", open(file, encoding="utf-8").read(), re.M):
            if re.match(r"\s*(search rules|refl|omega arith|grind arith|search \(?rules\)?)\s*$", m.group(3)):
                found[8].append(file.split("/", 1)[1] + ": " + m.group(1))
    for point in wanted:
        print("point %d: %d places" % (point, len(found[point])))
        if "--list" in sys.argv:
            print("\n".join("  " + place for place in found[point]))
    print("%d comments say why a place is kept" % kept)


main()
