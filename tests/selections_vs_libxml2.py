#!/usr/bin/env python3
"""Selections against libxml2, by xmllint (Debian's package libxml2-utils), on random pairs of path and tree.

The same path runs on a table through crate `trials`, and on the view written as XML through xmllint. There a label is any element whose name is equal to it
whatever the case of A to Z (document 02, card 6), `*[translate(name(), "ABC..", "abc..") = ..]`, and `$` any whose name is equal to one of those that the
subject is (card 5); all else is read alike. Every node has its number as an attribute, and the root one attribute more, so that no answer is empty.
Fails where a pair differs, where fewer than a third of the pairs select some nodes and not all, or where an element of the grammar is in fewer than
100 pairs. The seed is fixed: every run tries the same pairs.
"""

import collections
import concurrent.futures
import os
import random
import re
import string
import subprocess
import sys
import tempfile

sys.path.insert(0, os.path.dirname(os.path.abspath(__file__)))
import trials  # noqa: E402

SEED, TREES, PATHS_EACH = 20240501, 125, 20
LABELS = ["a", "b", "c", "or", "div", "_x", "SHA", "a-b", "x.y", "A", "B", "Or", "DIV", "_X", "sha", "A-b", "X.Y", "AZ", "az"]
NAMES = ["a", "Div", "or", "SHA"]
ISA = [("or", "Div"), ("SHA", "or")]
USER, IS = "SHA", ["SHA", "or", "Div"]
FOLDED = f'translate(name(), "{string.ascii_uppercase}", "{string.ascii_lowercase}")'
LEVEL_MAX = 11
ELEMENTS = ["label in another case", "child step", "descendant step", "label", "`*`", "position bracket", "path bracket", "nested bracket", "two brackets on a step", "`$`", "a position after `$`", "several steps", "RESTRICTED by name"]


def random_tree(rand, level, left):
    """A tree of at most `left` nodes, narrow labels, so that paths hit."""
    label, children, used = rand.choice(LABELS), [], 1
    while level < LEVEL_MAX and used < left and rand.random() < (0.9 if level == 0 else 0.62):
        child, size = random_tree(rand, level + 1, left - used)
        children.append(child)
        used += size
    return (label, children), used


def random_view(rand, nodes):
    """Numbers of shown nodes: a node's parent is shown too, and some labels stay hidden."""
    shown, open_levels = [], 0
    for k, (level, _) in enumerate(nodes):
        if level <= open_levels and (level == 0 or rand.random() < 0.93):
            shown.append(k + (trials.HIDDEN if rand.random() < 0.08 else 0))
            open_levels = level + 1
        else:
            open_levels = min(open_levels, level)
    return shown


def random_test(rand, used, labels):
    kind = rand.random()
    if kind < 0.42:
        used["`*`"] += 1
        return "*"
    if kind < 0.56:
        used["`$`"] += 1
        return "$"
    used["label"] += 1
    label = rand.choice(labels)
    if label == "RESTRICTED":
        used["RESTRICTED by name"] += 1
    if rand.random() < 0.3:
        typed = "".join(rand.choice([byte.lower(), byte.upper()]) for byte in label)
        if typed != label:
            used["label in another case"] += 1
        return typed
    return label


def random_steps(rand, used, labels, depth, first):
    """Steps, the first after `first`; brackets nest `depth` deep at most."""
    text, count = "", rand.choice([1, 1, 2, 2, 3] if depth == 3 else [1, 1, 1, 1, 2])
    if 1 < count:
        used["several steps"] += 1
    for k in range(count):
        slash = first if k == 0 else rand.choice(["/", "//", "//"])
        if slash:
            used["descendant step" if slash == "//" else "child step"] += 1
        test = random_test(rand, used, labels)
        text += slash + test
        brackets = rand.choices([0, 1, 2], [13, 5, 2])[0] if 0 < depth else 0
        if brackets == 2:
            used["two brackets on a step"] += 1
        for _ in range(brackets):
            if depth < 3:
                used["nested bracket"] += 1
            if rand.random() < 0.4:
                used["position bracket"] += 1
                if test == "$":
                    used["a position after `$`"] += 1
                text += "[%d]" % rand.choice([1, 1, 1, 1, 2, 2, 3, 9999])
            else:
                used["path bracket"] += 1
                text += "[" + random_steps(rand, used, labels, depth - 1, "") + "]"
    return text


def xml_of(view):
    """The view as XML, each node with its number."""
    text, open_labels = [], []
    for number, (level, label) in enumerate(view):
        while level < len(open_labels):
            text.append(f"</{open_labels.pop()}>")
        text.append(f'<{label} n="{number}"' + (' z="z"' if level == 0 else "") + ">")
        open_labels.append(label)
    text += [f"</{label}>" for label in reversed(open_labels)]
    return "".join(text)


def equal_to(labels):
    """The elements whose name is equal to one of these."""
    return "*[" + " or ".join(f'{FOLDED} = "{label.lower()}"' for label in labels) + "]"


def xpath_of(path):
    """A path as XPath reads it: its labels and `$` by what is equal to them."""
    test = re.compile(r"(?:(?<=[/\[])|^)(?:\$|(?![0-9]+\])[A-Za-z0-9_.-]+)")
    return test.sub(lambda found: equal_to(IS if found[0] == "$" else [found[0]]), path)


def ask_xmllint(xmllint, file, path, count):
    """The marks that libxml2 gives."""
    query = xpath_of(path) + "/@n | /*/@z"
    run = subprocess.run([xmllint, "--xpath", query, file], capture_output=True, text=True)
    if run.returncode != 0 or 'z="z"' not in run.stdout:
        sys.exit(f"FAILED: xmllint on {path}: {run.stdout}{run.stderr}")
    marks = [0] * count
    for number in re.findall(r'n="(\d+)"', run.stdout):
        marks[int(number)] = 1
    return marks


def main():
    xmllint = trials.need("xmllint", "libxml2-utils")
    library = trials.Trials()
    policy, user = trials.policy_of(NAMES, ISA), NAMES.index(USER)
    rand = random.Random(SEED)
    pairs, in_pairs = [], collections.Counter()
    with tempfile.TemporaryDirectory() as folder:
        for number in range(TREES):
            tree, _ = random_tree(rand, 0, rand.choice([20, 40, 60, 80]))
            nodes = trials.flat(tree)
            table = trials.table_of(nodes, len(nodes) + rand.randrange(3))
            shown = random_view(rand, nodes)
            view = [(nodes[x % trials.HIDDEN][0], "RESTRICTED" if trials.HIDDEN <= x else nodes[x][1]) for x in shown]
            labels = sorted({label for _, label in view}) * 3 + LABELS + ["RESTRICTED"]
            file = os.path.join(folder, f"{number}.xml")
            with open(file, "w", encoding="ascii") as out:
                out.write(xml_of(view))
            for _ in range(PATHS_EACH):
                used = collections.Counter()
                path = random_steps(rand, used, labels, 3, rand.choice(["//"] * 7 + ["/"]))
                marks = library.select(policy, user, table, shown, path)
                if marks in (-1, -2):
                    sys.exit(f"FAILED: {path} was refused with {marks}")
                in_pairs.update(set(used))
                pairs.append((file, path, view, marks))
        with concurrent.futures.ThreadPoolExecutor(os.cpu_count() or 1) as pool:
            wanted = list(pool.map(lambda p: ask_xmllint(xmllint, p[0], p[1], len(p[2])), pairs))
    differ = [(p, w) for p, w in zip(pairs, wanted) if p[3] != w]
    for (_, path, view, marks), want in differ[:10]:
        print(f"DIFFERS: {path}\n  on      {view}\n  ours    {marks}\n  libxml2 {want}")
    some = sum(1 for p in pairs if 0 < sum(p[3]) < len(p[3]))
    print(f"{some} of {len(pairs)} pairs select some nodes and not all")
    failed = bool(differ) or some * 3 < len(pairs) or len(pairs) < 2000
    for element in ELEMENTS:
        print(f"{in_pairs[element]} pairs with {element}")
        failed = failed or in_pairs[element] < 100
    if failed:
        sys.exit(f"FAILED: {len(pairs)} pairs, {len(differ)} differ")
    print(f"{len(pairs)} pairs, all alike")


if __name__ == "__main__":
    main()
