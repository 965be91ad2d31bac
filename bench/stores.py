"""The stores that the benches run on, in bytes (docs/FORMAT.md): trees, policies, and the states and tables that hold them.

A tree is a list of (level, label) in document order, a policy a list of (effect, right, path); rule k is of subject k / 2, and every subject is each one before
it, so that all rules apply to the last subject, the user.
"""
import re

RECORD, LABEL_MAX, LEVEL_MAX, NODES_MAX = 32, 24, 11, 16384
SUBJECTS_MAX, ISA_MAX, RULES_MAX, STEPS_MAX = 64, 128, 128, 16
RULE_BYTES = 8 + RECORD * STEPS_MAX
STAGE_B, STAGE_E = 1, 4
WINDOW_AT, WHOLE_YEAR = 26, (1).to_bytes(2, "little") + (366).to_bytes(2, "little")
RIGHTS = {"position": 1, "read": 2, "insert": 4, "update": 8, "delete": 16}


# --- Bytes ---


def record(first, label):
    """A record: its first byte (a level, an axis or zero) and its label."""
    return bytes([first, len(label)]) + label.encode().ljust(RECORD - 2, b"\0")


def node(level, label):
    """The record of a node that is shown all year, from day 1 to 366."""
    return record(level, label)[:WINDOW_AT] + WHOLE_YEAR + bytes(2)


def table(tree, capacity=NODES_MAX):
    used = len(tree).to_bytes(4, "little") + b"".join(node(level, label) for level, label in tree)
    return used.ljust(4 + RECORD * capacity, b"\0")


def rule(effect, right, path, subject):
    steps = [record(len(axis) - 1, label) for axis, label in re.findall("(//?)([^/]+)", path)]
    return (bytes([effect == "accept", RIGHTS[right], subject, len(steps), 0, 0, 0, 0]) + b"".join(steps)).ljust(RULE_BYTES, b"\0")


def isa_lines(subjects):
    """As many as are allowed: each subject is the one before it, then the one before that, and so on."""
    return [(n, n - gap) for gap in range(1, subjects) for n in range(gap, subjects)][:ISA_MAX]


def state(names, policy):
    """Stage E, the last of the names logged in."""
    isa = isa_lines(len(names))
    counts = bytes([len(names), len(isa), len(policy), 0, 0, 0, 0, 0])
    subjects = b"".join(record(0, name) for name in names).ljust(RECORD * SUBJECTS_MAX, b"\0")
    lines = b"".join(bytes(line) for line in isa).ljust(2 * ISA_MAX, b"\0")
    rules = b"".join(rule(*words, k // 2 % len(names)) for k, words in enumerate(policy)).ljust(RULE_BYTES * RULES_MAX, b"\0")
    return bytes([STAGE_E, len(names), 0, 0, 0, 0, 0, 0]) + counts + subjects + lines + rules


def before_root(with_user):
    """The state as it was before the root line."""
    return bytes([STAGE_B, 0]) + with_user[2:]


# --- Documents (document 02, card 2) ---


def document(tree, indent=""):
    """The tree as a solver writes it: a node without children is a text if it has no siblings, and else an element without content."""
    out, names = [], []
    levels = [level for level, _ in tree] + [0]

    def put(text, level, apart):
        out.append(("\n" + indent * level if indent and apart and out else "") + text)

    for i, (level, label) in enumerate(tree):
        leaf, text = levels[i + 1] <= level, levels[i - 1] < level > levels[i + 1]
        put(label if text else f"<{label}/>" if leaf else f"<{label}>", level, not text)
        if not leaf:
            names.append(label)
        while len(names) > levels[i + 1]:
            name = names.pop()
            put(f"</{name}>", len(names), not text)
            text = False
    return "".join(out)


def nested(depth, innermost="a"):
    """So many elements, each within the one before it; the innermost one closed by this name."""
    return "<a>" * depth + f"</{innermost}>" + "</a>" * (depth - 1)


# --- Shapes of trees: levels in document order ---


def deep(nodes=NODES_MAX):
    """Chains under the root, a node a level down to level 11."""
    return [0] + [i % LEVEL_MAX + 1 for i in range(nodes - 1)]


def flat(nodes=NODES_MAX):
    """Siblings under the root."""
    return [0] + [1] * (nodes - 1)


def bottom(nodes=NODES_MAX):
    """One chain to level 10, all other nodes on level 11 below it."""
    return [*range(LEVEL_MAX), *[LEVEL_MAX] * (nodes - LEVEL_MAX)]


def week(nodes=NODES_MAX):
    """Five days of eight periods under the root; the other nodes are rooms below the periods, each with a node in it."""
    rooms = (nodes - 46) // 80
    levels = [0] + ([1] + ([2] + [3, 4] * rooms) * 8) * 5
    return levels + [3, 4] * ((nodes - len(levels)) // 2)


LEVELS = ["school", "week", "day", "lesson", "class", "group", "room", "note", "item", "line", "part", "word"]


def by_level(levels):
    """A label a level."""
    return [(level, LEVELS[level]) for level in levels]


def in_order(levels, labels):
    """The labels one after the other, again and again."""
    return [(level, labels[i % len(labels)]) for i, level in enumerate(levels)]


# --- Policies for lines beside the model ---

NUMBERED = [f"s{k}" for k in range(SUBJECTS_MAX)]
PATHS = ["//*", "/school//lesson", "//day//room", "/school/week/day/lesson/class", "//lesson/*//*", "//week//class//note", "//*//*//*//*", "//word"]


def accepts(paths, rules=RULES_MAX):
    """The rights in turn, on the paths in turn."""
    return [("accept", list(RIGHTS)[k % len(RIGHTS)], paths[k % len(paths)]) for k in range(rules)]


FIVE = state(NUMBERED[:1], accepts(["//*"], 5))
ALL = state(NUMBERED, accepts(["//*"]))
WITH_LABELS = state(NUMBERED, accepts(PATHS))

# --- A school, and what its readers may see (document 02, card 12) ---

DAYS = ["mon", "tue", "wed", "thu", "fri"]
PERIODS = [f"p{k}" for k in range(1, 9)]
CLASSES = [f"{year}{letter}" for year in range(5, 14) for letter in "ABCDEF"]
ROOMS = [f"R{k}" for k in range(1, 141)] + ["hall", "gym", "lab-1", "lab-2", "library", "studio"]
NOTES = ["ill", "moved", "exam", "trip", "cover", "late", "test", "film", "swim", "sports.day", "half_class", "no-homework"]
READER = "SHA"
TEACHERS = [a + b + c for a in "ABDG" for b in "AEIU" for c in "KLMNR"]
ROLES = ["staff", "office", "heads", "music", "sports", "science", "arts", "languages", "tutors", "cover-team"]
READERS = (ROLES + TEACHERS)[: SUBJECTS_MAX - 1] + [READER]


def lesson(i):
    """Every eighth lesson is the reader's, every twentieth of the reader's own class, every third has a note."""
    own_class = [(5, "class"), (6, READER), (7, "group")] if i % 20 == 0 else [(5, "class"), (6, CLASSES[i * 7 % len(CLASSES)])]
    teacher = READER if i % 8 == 0 else TEACHERS[i * 11 % len(TEACHERS)]
    note = [(5, "note"), (6, NOTES[i % len(NOTES)])] if i % 3 == 0 else []
    return [(4, "lesson"), *own_class, (5, "room"), (6, ROOMS[i * 13 % len(ROOMS)]), (5, "teacher"), (6, teacher), *note]


def school(nodes=NODES_MAX, lessons=53):
    """A week of five days and eight periods, each with a note for the reader and its lessons; the last lessons are cut off."""
    tree = [(0, "school"), (1, "week")]
    for d, day in enumerate(DAYS):
        tree.append((2, day))
        for p, period in enumerate(PERIODS):
            tree += [(3, period), (4, READER), (5, "note"), (6, NOTES[p])]
            for i in range(lessons):
                tree += lesson((d * len(PERIODS) + p) * lessons + i)
    assert len(tree) >= nodes
    return tree[:nodes]


KINDS = {"DAY": DAYS, "PERIOD": PERIODS, "CLASS": CLASSES, "ROOM": ROOMS, "TEACHER": TEACHERS, "NOTE": NOTES}


def fill(k, path):
    """The path of rule k with one of their kind for its words in capitals."""
    return re.sub("[A-Z]{3,}", lambda kind: KINDS[kind.group()][(7 * k + k // 16) % len(KINDS[kind.group()])], path)


# 3 of 7 rules are of read
RIGHTS_IN_TURN = ["read", "position", "update", "read", "insert", "read", "delete"]
MIXED_PATHS = [
    "/school//note", "/school//lesson", "//DAY//room", "/school/week/DAY/*", "//room/ROOM", "//lesson/*//*", "//class/CLASS", "/school/week/DAY/PERIOD/lesson/note",
    "//teacher/TEACHER", "//PERIOD//class/CLASS", "/school//DAY//teacher/*", "//lesson/note/*", "//PERIOD/*", "//PERIOD//room", "//lesson", "//note/NOTE",
]
LABEL_PATHS = [path for path in MIXED_PATHS if path not in ("//lesson", "//lesson/*//*")]
OWN_PATHS = [
    "//$", "//$//*", "//class/$/*", "/school//$/note", "//teacher/$", "//room/ROOM", "//lesson/*/$", "/school/week/*/*/$", "//$/*/*", "//note/NOTE", "//lesson//$",
    "//DAY//$/note", "//class/CLASS",
]


def in_turn(paths, deny, first, last=(), denied=tuple(RIGHTS)):
    """128 rules: the paths and rights in turn, each `deny`-th a denial if its right may be denied, between the first and the last ones."""
    turns = [(RIGHTS_IN_TURN[k % 7], fill(k, paths[k % len(paths)])) for k in range(RULES_MAX)]
    rules = [("deny" if k % deny == 0 and right in denied else "accept", right, path) for k, (right, path) in enumerate(turns)]
    return [*first, *rules[len(first) : RULES_MAX - len(last)], *last]


READ_ALL, POSITION_ALL = ("accept", "read", "//*"), ("accept", "position", "//*")
# what holds for all nodes comes first and the exceptions behind it, as in document 01's example
GENERAL = [READ_ALL, POSITION_ALL]
# the nodes that hold the others are read, notes are hidden but where a rule grants their place, rooms are RESTRICTED
FRAME = [("accept", "read", path) for path in ("/school", "/school/*", "/school/*/*", "/school/*/*/*", "//lesson", "//lesson/*")]
DENIALS = [*FRAME, ("deny", "read", "//note/*"), ("deny", "read", "//room/*"), ("accept", "position", "//room/*")]

MIXED = "(b) mixed paths with labels, every node shown"
POLICIES = [
    (name, (state(READERS, policy), table(school())))
    for name, policy in (
        ("(a) all `//*`", accepts(["//*"])),
        (MIXED, in_turn(MIXED_PATHS, 5, GENERAL, denied=("read", "insert", "update", "delete"))),
        ("(c) accepts and denies in turn", in_turn(LABEL_PATHS, 2, [READ_ALL], DENIALS)),
        ("(d) paths with `$`", in_turn(OWN_PATHS, 5, GENERAL)),
    )
]

# --- Made to hurt: 128 rules, of read and position in turn, after one that shows every node ---

# 39 bytes of labels in their order, no two of them one letter in both cases
BYTES = sorted("abcdefghijklmnopqrstuvwxyz0123456789-_.")
WORDS_MAX = (RULES_MAX - 1) * STEPS_MAX
LONG = "L" * LABEL_MAX
NEXT = LONG[:-1] + "K"  # differs from it in the last byte
LONG_NAMES = ["N" * (LABEL_MAX - 2) + f"{k:02}" for k in range(SUBJECTS_MAX)]


def labels_at(first, second, third, beside=False):
    """2,032 labels of 24 bytes in their order that differ in three bytes; `beside`: as many that stand each just before one of them."""
    found = []
    for i in range(WORDS_MAX):
        label = ["m"] * LABEL_MAX
        label[first], label[second], label[third] = BYTES[i // 512], BYTES[i // 16 % 32], BYTES[i % 16 * 2 + (not beside)]
        found.append("".join(label))
    return found


def capitals(labels):
    return [label.upper() for label in labels]


TAIL, BESIDE, HEAD, INNER = labels_at(21, 22, 23), labels_at(21, 22, 23, beside=True), labels_at(0, 1, 2), labels_at(6, 11, 17)
SHUFFLED = [TAIL[i * 1365 % WORDS_MAX] for i in range(WORDS_MAX)]


def paths_of(words, axis="//"):
    """Paths of 16 steps with the words one after the other."""
    return ["".join(axis + word for word in words[k : k + STEPS_MAX]) for k in range(0, WORDS_MAX, STEPS_MAX)]


def hurting(paths):
    """The state whose rules have the paths in turn."""
    rules = [("accept" if k % 4 < 2 else "deny", ["read", "position"][k % 2], paths[k % len(paths)]) for k in range(RULES_MAX - 1)]
    return state(LONG_NAMES, [READ_ALL, *rules])


# name, paths, labels of the nodes in order
HURTING = [
    ("`//L/L/..`, 16 steps, every node L", ["/" + f"/{LONG}" * 16], [LONG]),
    ("`//L/L/..`, 12 steps, every node L", ["/" + f"/{LONG}" * 12], [LONG]),
    ("`//L//L..`, 16 steps, every node L", [f"//{LONG}" * 16], [LONG]),
    ("`//a//a..`, 16 steps, every node a", ["//a" * 16], ["a"]),
    ("`//$//$..`, 16 steps, every node the user's name", ["//$" * 16], LONG_NAMES[-1:]),
    ("`//$/$/..`, 16 steps, every node the user's name", ["/" + "/$" * 16], LONG_NAMES[-1:]),
    ("`//*//*..`, 16 steps", ["//*" * 16], [LONG]),
    ("`//K/L/L/L/L/L//L`, every node L, K but for the last byte", [f"//{NEXT}{('/' + LONG) * 5}//{LONG}"], [LONG]),
    ("`//L`, every node L", ["//" + LONG], [LONG]),
    ("`//L`, every node L but for the last byte", ["//" + LONG], [NEXT]),
    ("`//l//l..`, 16 steps, every node L, of small letters and of capitals", [f"//{LONG.lower()}" * 16], [LONG]),
    ("2,032 words alike in 21 bytes, nodes among them", paths_of(TAIL), TAIL),
    ("the same words, nodes just beside them", paths_of(TAIL), BESIDE),
    ("the same words in falling order, nodes beside", paths_of(TAIL[::-1]), BESIDE),
    ("the same words shuffled, nodes beside", paths_of(SHUFFLED), BESIDE),
    ("the same words, nodes among them in capitals", paths_of(TAIL), capitals(TAIL)),
    ("the same words, nodes beside them in capitals", paths_of(TAIL), capitals(BESIDE)),
    ("the same words in falling order, nodes beside in capitals", paths_of(TAIL[::-1]), capitals(BESIDE)),
    ("the same words, every node the last of them", paths_of(TAIL), TAIL[-1:]),
    ("the same words with `/`, nodes among them", paths_of(TAIL, "/"), TAIL),
    ("2,032 words that differ in the first bytes", paths_of(HEAD), HEAD),
    ("2,032 words alike in first, middle and last byte", paths_of(INNER), INNER),
]
SHAPES = {"deep": deep, "flat": flat, "bottom": bottom}


def hurting_stores():
    """Each of them on each shape: name, shape and store."""
    for name, paths, labels in HURTING:
        for shape, levels in SHAPES.items():
            yield name, shape, (hurting(paths), table(in_order(levels(), labels)))
