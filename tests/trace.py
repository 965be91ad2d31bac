#!/usr/bin/env python3
"""Docs that name what is there: each definition, law, function, file and edit that docs/TRACE.md names in its columns stands in the crates. docs/PROOF.md's list of
the definitions to be believed has the lines of each, blank ones and imports apart, and their sums, below BELIEVED_MAX; the laws that it names stand in the files beside their names. Links in
the pages lead to what is there, and no page has a line over 120 columns, rows of tables apart.

A name in backquotes that is one word is a definition or a law (`specs/`, `proofs/`) or a function (`src/`); `module::function` is a function of that module, `module::Type::method` a method; CRATE/NAME in the last
column is an edit. The last line is `N passed, M failed`, a name counted once.
"""
import glob
import os
import re
import sys

ROOT = os.path.dirname(os.path.dirname(os.path.abspath(__file__)))
os.chdir(ROOT)

antt = set()
for path in glob.glob("crates/*/specs/**/*.antt", recursive=True) + glob.glob("crates/*/proofs/**/*.antt", recursive=True):
    text = open(path).read()
    antt.add(os.path.basename(path)[:-5])
    antt.update(re.findall(r"(?m)^\s*(?:abbrev |unfoldable )?(?:pub )?([^\s:(){}]+) :", text))
    antt.update(word for line in re.findall(r"(?m)^\s+(?:pub )?((?:[^\s:(){}=]+ )+):", text) for word in line.split())
    antt.update(re.findall(r"(?m)^\s*pub (?:record|data) ([^\s:(){}]+)", text))
functions, types = set(), set()
for path in glob.glob("crates/*/src/*.rt"):
    module = os.path.basename(path)[:-3]
    text = open(path).read()
    kind = ""
    for opened, closed, name in re.findall(r"(?m)^(?:impl(?:<[^>]*>)? (?:.* for )?(\w+)|(\})|\s*(?:pub(?:\(crate\))? )?(?:extern \"C\" )?fn (\w+))", text):
        kind = opened + "::" if opened else "" if closed else kind
        if name:
            functions.update((name, module + "::" + kind + name))
    # the method of an `impl From<X> for Y` goes by the prover's name of that impl
    functions.update(module + "::%sFrom%s::from" % (y[0].upper() + y[1:], x) for x, y in re.findall(r"(?m)^impl From<(\w+)> for (\w+)", text))
    types.update(re.findall(r"(?m)^\s*(?:pub(?:\(crate\))? )?(?:enum|struct|const) (\w+)", text))
    types.update(re.findall(r"(?m)^    ([A-Z]\w*)\b", text))
edits = {path.split("/")[1] + "/" + os.path.basename(path)[:-5] for folder in ("edits", "must-fail") for path in glob.glob("crates/*/%s/*.edit" % folder)}
crates = {os.path.basename(path) for path in glob.glob("crates/*")}

# the most lines of definitions to be believed; 1,700 until card 3, whose own definitions have 49, and since then the table of the forms counts too; 1,800 until card 7,
# which adds a kind of part, two forms, the window of a record and the day of a session; 1,950 until a refusal became an enum, which has to be read with its numbers
BELIEVED_MAX = 1975
# words of the language, no names of ours
WORDS = {"ensures", "requires"}
seen, wrong = set(), []


def look(kind, name, good, line):
    if (kind, name) in seen:
        return
    seen.add((kind, name))
    if not good:
        wrong.append("docs/TRACE.md:%d: no %s `%s`" % (line, kind, name))


for number, row in enumerate(open("docs/TRACE.md"), 1):
    if not row.startswith("| "):
        continue
    cells = row.strip().strip("|").split(" | ")
    for cell in cells[1:]:
        for name in re.findall(r"`([^`\s]+)`", cell):
            if re.fullmatch(r"\w+(?:::\w+)+", name):
                look("function", name, name in functions, number)
            elif re.fullmatch(r"[A-Za-z][\w'-]*", name):
                look("definition, law or function", name, name in antt or name in functions or name in types or name in crates or name in WORDS, number)
        for crate, name in re.findall(r"(?<![\w/`.])([a-z]+)/([a-z0-9_-]+)(?![\w/.])", cell):
            if crate in crates and name not in ("specs", "proofs", "src", "stdin"):
                look("edit", crate + "/" + name, crate + "/" + name in edits, number)
        for crate, part, name in re.findall(r"(?<![\w/`.])([a-z]+)/(specs|proofs|src)/([\w/]+)", cell):
            if crate in crates:
                there = [p for end in ("", ".antt", ".rt") for p in glob.glob("crates/%s/%s/%s%s" % (crate, part, name, end))]
                look("file", "/".join((crate, part, name)), there, number)



def declared(block, name):
    return re.search(r"(?m)^\s*(?:abbrev |unfoldable )?(?:pub )?(?:data |record )?%s(?: |$)" % re.escape(name), block)


# docs/PROOF.md's list: a file, `whole` or the definitions of it that are to be read, what they say, their lines. A file may have several rows, of different
# definitions. The rows of each section have a sum, and all together.
page = open("docs/PROOF.md").read()
total = 0
counted = set()
for section in re.split(r"(?m)^### ", page):
    rows = re.findall(r"(?m)^\| \[([a-z]+/specs/\w+)\] \| ([^|]*) \| [^|]* \| (\d+) \|$", section)
    subtotal = 0
    for name, which, said in rows:
        path = "crates/%s.antt" % name
        text = open(path).read() if os.path.isfile(path) else ""
        blocks = ["\n".join(line for line in block.split("\n") if line and not re.match(r"(pub )?use ", line)) for block in re.split(r"\n\s*\n", text)]
        names = re.findall(r"`([^`]+)`", which)
        chosen = range(len(blocks)) if which == "whole" else [at for at, block in enumerate(blocks) if any(declared(block, one) for one in names)]
        missing = [one for one in names if not any(declared(block, one) for block in blocks)]
        wrong.extend("docs/PROOF.md: %s has no `%s`" % (name, one) for one in missing)
        twice = [at for at in chosen if (name, at) in counted]
        if twice:
            wrong.append("docs/PROOF.md: %s: a definition of `%s` is counted twice" % (name, which))
        counted.update((name, at) for at in chosen)
        count = sum(len([line for line in blocks[at].split("\n") if line.strip()]) for at in chosen)
        subtotal += count
        seen.add(("PROOF", name, which))
        if count != int(said):
            wrong.append("docs/PROOF.md: %s, %s has %d lines, not %s" % (name, which, count, said))
    if rows:
        told = re.search(r"(?m)^Here: ([\d,]+) lines", section)
        seen.add(("PROOF", section.split("\n")[0]))
        if not told or int(told.group(1).replace(",", "")) != subtotal:
            wrong.append("docs/PROOF.md: %s: %d lines" % (section.split("\n")[0], subtotal))
    total += subtotal
together = re.search(r"Together ([\d,]+) lines", page)
seen.add(("PROOF", "together"))
if not counted or not together or int(together.group(1).replace(",", "")) != total or total >= BELIEVED_MAX:
    wrong.append("docs/PROOF.md: the list of definitions has %d lines together" % total)

# `NAME`, .. ([FILE](LINK)) and `NAME`, .. in [FILE](LINK): definitions, laws, functions or types of that file
NAMING = re.compile(r"((?:`[\w'-]+`(?:,| and)?\s+)+)(?:in\s+)?\(?\[[^\]]+\]\(([^)]+\.(?:antt|rt))\)")
for name in ("docs/PROOF.md", "docs/MODEL.md", "docs/DESIGN.md", "CONTRIBUTING.md"):
    for words, link in NAMING.findall(open(name).read()):
        path = os.path.normpath(os.path.join(os.path.dirname(name), link))
        text = open(path).read() if os.path.isfile(path) else ""
        for word in re.findall(r"`([^`]+)`", words):
            seen.add((name, path, word))
            if not declared(text, word) and not re.search(r"(?m)^\s*(?:pub(?:\(crate\))? )?(?:extern \"C\" )?(?:fn|enum|struct) %s\b" % re.escape(word), text):
                wrong.append("%s: %s has no `%s`" % (name, path, word))


# Links: a file or folder that is there, and in a page a heading.
def anchors(path):
    """The names that a link can end with, as they are made of the headings of a page."""
    text = re.sub(r"(?ms)^```.*?^```$", "", open(path).read())
    return {re.sub(r"[^\w\- ]", "", heading.lower()).replace(" ", "-") for heading in re.findall(r"(?m)^#+ (.*)$", text)}


PAGES = sorted(glob.glob("*.md") + glob.glob("docs/*.md") + glob.glob("office/*.md"))
for name in PAGES:
    text = re.sub(r"(?ms)^```.*?^```$", "", open(name).read())
    for target in re.findall(r"\]\(([^)\s]+)\)", text) + re.findall(r"(?m)^\[[^\]]+\]: (\S+)$", text):
        if re.match(r"https?://", target):
            continue
        file, _, anchor = target.partition("#")
        path = os.path.normpath(os.path.join(os.path.dirname(name), file)) if file else name
        seen.add((name, target))
        if not os.path.exists(path):
            wrong.append("%s: no file %s" % (name, target))
        elif anchor and (not path.endswith(".md") or anchor not in anchors(path)):
            wrong.append("%s: no heading %s" % (name, target))
    for word in re.findall(r"(?m)\| \[([^\]]+)\](?= \|)", text):
        if not re.search(r"(?m)^\[%s\]: " % re.escape(word), text):
            wrong.append("%s: [%s] leads nowhere" % (name, word))

# docs/MODEL.md's tables of the forms: the stage of each is that of its row in `layout`, and the numbers that it may be refused with are those of `rows_by`.
model = open("docs/MODEL.md").read()
conditions = open("crates/lines/specs/Conditions.antt").read()
stages = {form: stage.upper() for stage, form in re.findall(r'(?m)^layout word\.\w+ = row stage_(\w) \(bytes "(\w+)"\)', open("crates/forms/specs/Layout.antt").read())}


def numbers(body):
    """The numbers of rows, in order, each once; rows that are named are those of their definition."""
    found = []
    for number, name in re.findall(r"\((\d+),|\b(\w+_rows)\b", body):
        for one in [int(number)] if number else numbers(re.search(r"(?ms)^  %s\b[^=:\n]*=(.*?)(?:\n\n|\Z)" % name, conditions).group(1)):
            if one not in found:
                found.append(one)
    return found


clauses = {form.lower(): numbers(body) for form, body in re.findall(r"(?ms)^  rows_by word\.(\w+)[^=\n]*=(.*?)(?=^  rows_by |\n\n)", conditions)}
told = {form: [int(one) for one in said.split(", ")] for names, said in re.findall(r"(?m)^\| ((?:`\w+`(?:, )?)+) \| ([\d, ]+) \|$", model) for form in re.findall(r"\w+", names)}
staged = {form: stage for stage, form in re.findall(r"(?m)^\| ([A-E]) \| `\((\w+)", model)}
for form in stages:
    seen.add(("MODEL", form))
    if stages[form] != staged.get(form) or form not in clauses or clauses[form] != told.get(form):
        wrong.append("docs/MODEL.md: %s is of stage %s, and refused with %s" % (form, stages[form], clauses.get(form)))
if not stages or set(stages) != set(staged) or set(stages) != set(told):
    wrong.append("docs/MODEL.md: other forms than `layout` has")

# The picture of the crates has each of them, and its arrows lead, in one step or more, to all that each rests on and to nothing else.
rests = {name: [one for one in names.split() if one in crates] for name, names in re.findall(r"(?m)^(\w+)(?: staticlib)?:(.*)$", open("crates.txt").read())}
picture = open("docs/house.svg").read()
drawn = re.findall(r'font-weight="bold">([^<]+)<', picture)
arrows = re.findall(r'data-from="(\w+)" data-to="(\w+)"', picture)


def below(name, steps):
    """All that is reached from it."""
    return {one for step in steps.get(name, []) for one in {step} | below(step, steps)}


for name in rests:
    seen.add(("house", name))
    if drawn.count(name) != 1 or below(name, rests) != below(name, {start: [to for by, to in arrows if by == start] for start in rests}):
        wrong.append("docs/house.svg: %s is not as crates.txt has it" % name)

# Columns: no page has a line over 120. A row of a table is one line, whatever its length; those of the pages for users and newcomers keep to it too.
NARROW = ["README.md", "CHANGELOG.md", "CONTRIBUTING.md", "office/README.md", "office/timetable-office.1"] + ["docs/" + name for name in (
    "GUIDE.md", "MODEL.md", "DESIGN.md", "PROOF.md", "timetable.1")]
for name in NARROW + sorted(set(glob.glob("docs/*.md")) - set(NARROW)):
    seen.add(("columns", name))
    for number, line in enumerate(open(name), 1):
        if len(line.rstrip("\n")) > 120 and (name in NARROW or not line.startswith("|")):
            wrong.append("%s:%d: over 120 columns" % (name, number))
            break

for line in wrong:
    print(line)
print("%d passed, %d failed" % (len(seen) - len(wrong), len(wrong)))
sys.exit(bool(wrong))
