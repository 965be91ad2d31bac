#!/usr/bin/env python3
"""documents.py LIBRARY.so: the reading of the solver's file (document 02, card 2) against expat, which Python has as xml.parsers.expat.

Random documents, good and damaged, go to both. What the call must do is decided here without the library: from expat's events, and from the bytes
where expat tells nothing of them (blanks inside a tag, references, byte order marks, UTF-16). A document that expat refuses, or takes and that is
not of the narrow kind, is refused with 14; any other is refused with 9, 10 or 11 on their conditions or is taken, and then state and table hold
expat's elements and texts, byte for byte as docs/FORMAT.md lays them out. So what the library takes expat takes with the same tree, and what expat
takes and is of the kind the library takes. Fails where one document differs, or where a class of documents is seen fewer than LEAST times.

Then very deep documents, and a school's week (week.py): it leaves the bytes that lines leave, and fits a table of its size and none smaller.
The seed is fixed: every run tries the same documents.
"""

import collections
import random
import re
import sys
from xml.parsers import expat

import week
from library import Broken, Slice, Store, table_bytes
from trials import flat, table_of

SEED, DOCUMENTS, LEAST = 20261116, 20000, 20
NODES_MAX, LEVEL_MAX = 16384, 11
OK = b"(ok)\n"
STAGE_C, STAGE_D = 2, 3
BANNED_LABEL, TOO_DEEP, TABLE_FULL, NO_DOCUMENT = 9, 10, 11, 14
LABEL = re.compile(r"[A-Za-z0-9_.-]{1,24}")
BLANKS = " \t\r\n"
BLANK_IN_TAG = re.compile(rb"<[^<>]*[ \t\r\n][^<>]*>")
MARKS = (b"\xef\xbb\xbf", b"\xfe\xff", b"\xff\xfe")
POLICY = (b"(subject office)", b"(rule accept read //* office)", b"(rule accept insert //* office)")

# Why a document that expat takes is not of the kind; and of expat's own refusals those that must be seen.
ATTRIBUTE, COMMENT, INSTRUCTION, DECLARATION, DOCTYPE, CDATA = "attribute", "comment", "processing instruction", "declaration", "doctype", "CDATA"
REFERENCE, MARK, UTF_16, BLANK = "reference", "byte order mark", "UTF-16 without a mark", "blank inside a tag"
NAME, TEXT = "name that is no label", "text that is no label"
REASONS = [ATTRIBUTE, COMMENT, INSTRUCTION, DECLARATION, DOCTYPE, CDATA, REFERENCE, MARK, UTF_16, BLANK, NAME, TEXT]
ERRORS = [
    expat.errors.XML_ERROR_TAG_MISMATCH,
    expat.errors.XML_ERROR_INVALID_TOKEN,
    expat.errors.XML_ERROR_NO_ELEMENTS,
    expat.errors.XML_ERROR_JUNK_AFTER_DOC_ELEMENT,
    expat.errors.XML_ERROR_UNCLOSED_TOKEN,
    expat.errors.XML_ERROR_UNDEFINED_ENTITY,
]


class Reading:
    """What expat tells of a document: its nodes in document order, each text a leaf, with their levels; or its error. `reasons` are those
    for which it is not of the narrow kind."""

    def __init__(self, document):
        self.nodes, self.texts, self.reasons, self.error = [], [], set(), ""
        self.level, self.pieces = 0, []
        parser = expat.ParserCreate()
        parser.StartElementHandler, parser.EndElementHandler = self.opened, self.closed
        parser.CharacterDataHandler = self.pieces.append
        for handler, reason in (
            ("CommentHandler", COMMENT),
            ("ProcessingInstructionHandler", INSTRUCTION),
            ("XmlDeclHandler", DECLARATION),
            ("StartDoctypeDeclHandler", DOCTYPE),
            ("StartCdataSectionHandler", CDATA),
        ):
            setattr(parser, handler, lambda *_, reason=reason: self.reasons.add(reason))
        try:
            parser.Parse(document, True)
        except expat.ExpatError as error:
            self.error = expat.ErrorString(error.code)
        except (LookupError, ValueError):
            self.error = expat.errors.XML_ERROR_UNKNOWN_ENCODING
        self.look(document)

    def opened(self, name, attributes):
        self.end_text()
        if attributes:
            self.reasons.add(ATTRIBUTE)
        if not LABEL.fullmatch(name):
            self.reasons.add(NAME)
        self.nodes.append((self.level, name))
        self.level += 1

    def closed(self, _):
        self.end_text()
        self.level -= 1

    def end_text(self):
        text = "".join(self.pieces).strip(BLANKS)
        self.pieces.clear()
        if text:
            if not LABEL.fullmatch(text):
                self.reasons.add(TEXT)
            self.nodes.append((self.level, text))
            self.texts.append(text)

    def look(self, document):
        """The reasons that the bytes alone tell. A tag with attributes, a comment and the like have blanks of their own."""
        if document.startswith(MARKS):
            self.reasons.add(MARK)
        elif b"\0" in document:
            self.reasons.add(UTF_16)
        if b"&" in document:
            self.reasons.add(REFERENCE)
        if not self.reasons and BLANK_IN_TAG.search(document):
            self.reasons.add(BLANK)

    def refusal(self, capacity):
        """The number with which a table of this capacity refuses the document; 0 if it is taken."""
        if self.error or self.reasons:
            return NO_DOCUMENT
        if any(label.upper() == "RESTRICTED" for _, label in self.nodes):
            return BANNED_LABEL
        if any(level > LEVEL_MAX for level, _ in self.nodes):
            return TOO_DEEP
        return TABLE_FULL if capacity < len(self.nodes) else 0


# Random documents. A document is made as a list of its tags and of the texts and blanks between them.
NAMES = ["a", "b", "A", "mon", "p1", "R12", "lesson", "class", "note", "_", "_-.", "x.y", "a-b", "xml", "XMLa", "xmlns", "N" * 24, "restricte"]
TEXTS = NAMES + ["10B", "7", "-", ".", "..", "-a", "10B-maths", "0" * 24, "RESTRICTED."]
FILLERS = ["", "", "", "", " ", "\n", "\t", "\r\n", "\r", " \r\n\t ", "\n    "]


def random_label(rand, labels):
    return rand.choice(["RESTRICTED", "restricted", "Restricted"]) if rand.random() < 0.004 else rand.choice(labels)


def random_element(rand, level, deepest, left):
    """The tags and texts of an element of some `left` nodes at most, and how many it has."""
    name, inner, used = random_label(rand, NAMES), [rand.choice(FILLERS)], 1
    while used < left and rand.random() < (0.95 if level == 0 else 0.65):
        if rand.random() < 0.4:
            inner += [random_label(rand, TEXTS), rand.choice(FILLERS)]
            used += 1
        if level == deepest:
            break
        element, size = random_element(rand, level + 1, deepest, left - used)
        inner += [*element, rand.choice(FILLERS)]
        used += size
    if any(inner) or rand.random() < 0.3:
        return [f"<{name}>", *inner, f"</{name}>"], used
    return [f"<{name}/>"], used


def chain(rand):
    """A document of some 12 levels, with an element of its own at the bottom."""
    names = [rand.choice(NAMES) for _ in range(rand.randrange(LEVEL_MAX - 1, LEVEL_MAX + 3))]
    bottom = rand.choice(["", "10B", "<a/>", "<a>x</a>", "<a></b>", "<a/>x<b/>", "RESTRICTED"])
    return [f"<{name}>" for name in names] + [bottom] + [f"</{name}>" for name in reversed(names)]


def random_pieces(rand):
    if rand.random() < 0.08:
        pieces = chain(rand)
    else:
        pieces, _ = random_element(rand, 0, rand.choice([1, 2, 4, 8, 8]), rand.choice([1, 3, 8, 20, 40, 40]))
    return [piece.encode() for piece in [rand.choice(FILLERS), *pieces, rand.choice(FILLERS)] if piece]


# Damages. What stands before the root, behind it, and inside it:
BEFORE = [
    *MARKS, b"x", b"<a/>", b"<a>", b"</a>", b"\0", b"\x0b", b"<!-- x -->", b"<!---->", b"<?p?>", b"<?p x?>\n", b'<?xml version="1.0"?>',
    b'<?xml version="1.0" encoding="UTF-8"?>\n', b'<?xml version="1.0" encoding="ISO-8859-1"?>', b'<?xml version="1.0" encoding="none"?>',
    b'<?xml version="1.0" encoding="UTF-16"?>', b'<?xml version="1.0" encoding="Big5"?>', b'<?xml version="1.1"?>',
    b' <?xml version="1.0"?>', b"<!DOCTYPE a>", b'<!DOCTYPE a SYSTEM "a.dtd">', b"<!DOCTYPE a [<!ELEMENT a ANY>]>", b"&#10;",
]  # fmt: skip
BEHIND = [b"x", b"<a/>", b"<a></a>", b"<a>", b"</a>", b"\0", b"\x1a", b"<!-- x -->", b"<?p?>", b"&#10;", b"<![CDATA[]]>", b"]]>", b"10B", b"<"]
INSIDE = [
    b"<!-- x -->", b"<!--x-->", b"<!---->", b"<!-->", b"<!-- -- -->", b"<?p?>", b"<?p x?>", b'<?xml version="1.0"?>', b"<!DOCTYPE a>",
    b"<![CDATA[x]]>", b"<![CDATA[]]>", b"<![CDATA[<a>]]>", b"]]>", b"&#97;", b"&#x61;", b"&#13;", b"&#32;", b"&amp;", b"&lt;", b"&none;", b"&",
    b'<a b="c"/>', b"<a b='c'></a>", b"<a b=c/>", b"<a b/>", b'<a b="c" b="d"/>', b'<a xmlns="b"/>', b"<a />", b"<a ></a>", b"<a></a >",
    b"<a\n/>", b"<a\t></a\r\n>", b"< a/>", b"<a/ >", b"</ a>", b"<>", b"</>", b"<a//>", b"<a", b"<", b">", b"/>", b"</a", b"<a/", b"=", b'"',
    b"<a></A>", b"<a></b>", b"<a></a></a>", b"<a><b></a></b>", b"<a></aa>", b"<aa></a>", b"<a>", b"</a>", b"</a/>", b"<a:b/>", b"<:/>",
    b"<1a/>", b"<-a/>", b"<.a/>", b"<1></1>", b"<\xc3\xa9/>", b"<a\xc3\xa9></a\xc3\xa9>", b"<\xe9/>", b"<a\x7f/>", b"<a\0/>",
    b"<a>" + b"N" * 25 + b"</a>", b"<" + b"N" * 25 + b"/>", b"<" + b"N" * 300 + b"></" + b"N" * 300 + b">",
    b"<a>two words</a>", b"<a>two\nlines</a>", b"<a>x\r\ny</a>", b"<a>x>y</a>", b"<a>a:b</a>", b"<a>a/b</a>", b"<a>(a)</a>", b"<a>10B,</a>",
    b"<a>\xc3\xa9</a>", b"<a>\xc2\xa0x</a>", b"<a>x\xe2\x80\xa8</a>", b"<a>\xe9</a>", b"<a>\x7f</a>", b"<a>\x0c</a>", b"<a>\0</a>",
    b"<a>\xef\xbb\xbf</a>", b"<RESTRICTED/>", b"<a> RESTRICTED\n</a>", b"<RESTRICTED></RESTRICTED>", b"<Restricted/>",
]  # fmt: skip
BYTES = [bytes([b]) for b in b"<>/&;: \t\r\n\x0b\x0c\0!?-[]=\"'_.aA0Z9\x7f\x80\xa0\xe9\xff"]
CODINGS = ["utf-16", "utf-16-le", "utf-16-be", "utf-8-sig", "utf-32", "cp037"]


def edited(rand, parts, others):
    """A part deleted, inserted, changed or put twice, or two swapped."""
    at, other, edit = rand.randrange(len(parts)), rand.randrange(len(parts)), rand.randrange(5)
    if edit == 0:
        del parts[at]
    elif edit == 1:
        parts.insert(at, rand.choice(others))
    elif edit == 2:
        parts[at] = rand.choice(others)
    elif edit == 3:
        parts.insert(at, parts[at])
    else:
        parts[at], parts[other] = parts[other], parts[at]
    return b"".join(parts)


def edited_bytes(rand, pieces):
    return edited(rand, [bytes([b]) for b in b"".join(pieces)], BYTES + [bytes([rand.randrange(256)])])


def edited_pieces(rand, pieces):
    return edited(rand, pieces, pieces + [b"x", b"<a>", b"</a>", b"<a/>"])


def edited_tag(rand, pieces):
    """A tag with something behind its name, or with another name."""
    at = rand.choice([k for k, piece in enumerate(pieces) if piece.startswith(b"<")])
    start, name, end = re.fullmatch(rb"(</?)([^/>]*)(.*)", pieces[at], re.DOTALL).groups()
    names = [b" " + name, b"1" + name, name[:-1], name.swapcase()]
    names += [name + more for more in (b" ", b"\n", b' b="c"', b"a", b":a", b"/")]
    pieces[at] = start + rand.choice(names) + end
    return b"".join(pieces)


def inserted(rand, pieces, things=INSIDE):
    """Something between the root's tags."""
    tags = [k for k, piece in enumerate(pieces) if piece.startswith(b"<")]
    if len(tags) == 1:
        pieces, tags = [b"<a>", *pieces, b"</a>"], [0, len(pieces) + 1]
    pieces.insert(rand.randrange(tags[0], tags[-1]) + 1, rand.choice(things))
    return b"".join(pieces)


def declared(rand, pieces):
    """An entity that is declared and used."""
    return b'<!DOCTYPE a [<!ENTITY e "x">]>' + inserted(rand, pieces, [b"&e;"]).lstrip()


def coded(rand, pieces):
    """In another encoding."""
    return b"".join(pieces).decode().encode(rand.choice(CODINGS))


# How often each is made, of 42.
MADE = [
    (12, lambda rand, pieces: b"".join(pieces)),
    (7, edited_bytes),
    (5, edited_pieces),
    (3, edited_tag),
    (9, inserted),
    (2, lambda rand, pieces: rand.choice(BEFORE) + b"".join(pieces).lstrip()),
    (1, lambda rand, pieces: b"".join(pieces) + rand.choice(BEHIND)),
    (1, declared),
    (1, coded),
    (1, lambda rand, pieces: b"".join(pieces)[: rand.randrange(12)]),
]


def random_document(rand):
    make = rand.choices([make for _, make in MADE], [times for times, _ in MADE])[0]
    return make(rand, random_pieces(rand))


# What a document that both take is like, and its table.
FULL = "a table of its size"
KINDS = {
    "a root alone": lambda document, reading: len(reading.nodes) == 1,
    "nodes of level 11": lambda document, reading: any(level == LEVEL_MAX for level, _ in reading.nodes),
    "a carriage return": lambda document, reading: b"\r" in document,
    "an element closed in its own tag": lambda document, reading: b"/>" in document,
    "an element opened and closed": lambda document, reading: b"></" in document,
    "a label of 24 bytes": lambda document, reading: any(len(label) == 24 for _, label in reading.nodes),
    "a name that begins with xml": lambda document, reading: b"<xml" in document.lower(),
    "a text that is no name": lambda document, reading: any(text[0] in "0123456789-." for text in reading.texts),
    "a text before an element": lambda document, reading: re.search(rb"[^>\s]\s*<[^/]", document),
    "a text behind an element": lambda document, reading: re.search(rb"(</[^>]*|/)>\s*[^<\s]", document),
}


class Tester:
    """The library, what was seen of it, and where it differs. A document meets an empty state or one with a policy."""

    def __init__(self, library):
        self.seen, self.differ = collections.Counter(), []
        self.store = Store(library)
        self.store.lend_area(len(OK))
        self.states = [self.held()[0]]
        for line in POLICY:
            self.expect(self.store.line(line), len(OK), line)
        self.states.append(self.held()[0])

    def expect(self, got, wanted, what):
        if got != wanted:
            self.differ.append(f"{what!r:.300}: {got!r:.300}, not {wanted!r:.300}")

    def held(self):
        """State and table."""
        return [bytes(lent.memory)[: lent.length] for lent in (self.store.state, self.store.table)]

    def load(self, document, reading, state, size):
        """Gives the document to the library with a table of so many bytes, and compares. The number of its refusal."""
        refusal = reading.refusal((size - 4) // 32)
        self.store.state, self.store.table = Slice(state), Slice(bytes(size))
        got = self.store.load_xml(document)
        self.expect(got, -refusal if refusal else len(OK), document)
        if got >= 0 and not refusal:
            self.expect(self.store.answer(got), OK, document)
            stage = STAGE_C if len(reading.nodes) == 1 else STAGE_D
            self.expect(self.held(), [bytes([stage]) + state[1:], table_of(reading.nodes).ljust(size, b"\0")], document)
        return refusal

    def try_random(self, rand):
        document = random_document(rand)
        reading = Reading(document)
        records = max(0, len(reading.nodes) + rand.choice((-1, 0, 0, 1, 100)))
        refusal = self.load(document, reading, rand.choice(self.states), table_bytes(records) + rand.choice((0, 0, 31)))
        if reading.error:
            self.seen["refused by both", reading.error] += 1
        elif reading.reasons:
            self.seen["taken by expat alone", min(reading.reasons) if len(reading.reasons) == 1 else "several of these"] += 1
        elif refusal:
            self.seen["of the kind, and refused", refusal] += 1
        else:
            self.seen["taken by both", "in all"] += 1
            self.seen["taken by both", FULL] += records == len(reading.nodes)
            self.seen.update(("taken by both", kind) for kind, is_so in KINDS.items() if is_so(document, reading))


def nested(levels, wrong=None):
    """So many elements, each below the one before; the tag that closes the one of level `wrong` has another name."""
    closing = [b"</b>" if level == wrong else b"</a>" for level in reversed(range(levels))]
    return b"<a>" * levels + b"".join(closing)


def lines_of(tree):
    """The lines that leave a week's tree, none above 1,024 bytes: days with empty periods, a login, and each room of a period by itself."""
    root, days = tree
    yield f"(root {root})"
    for day, periods in days:
        yield f"(child {week.tree_text((day, [(period, []) for period, _ in periods]))})"
    yield "(user office)"
    for day, periods in days:
        for period, rooms in periods:
            for room in rooms:
                yield f"(append /{root}/{day}/{period} {week.tree_text(room)})"


def occupied(room):
    """What a lesson of the week occupies: its room, its class and its teacher."""
    name, (_, (_, parts)) = room
    return [name] + [leaf for part, ((leaf, _),) in parts if part in ("class", "teacher")]


def deep_documents(tester):
    levels, open_tags = 100_000, b"<a>" * 100_000
    documents = [(nested(levels), TOO_DEEP), (open_tags, NO_DOCUMENT), (open_tags + b"RESTRICTED" + b"</a>" * levels, BANNED_LABEL)]
    documents += [(open_tags + b"restricteD" + b"</a>" * levels, BANNED_LABEL), (b"<A>" + nested(levels - 1) + b"</a>", NO_DOCUMENT)]
    for wrong in (0, LEVEL_MAX, LEVEL_MAX + 1, 16383, 16384, 16385, 65536, levels - 1):
        documents.append((nested(levels, wrong), NO_DOCUMENT))
    for document, refusal in documents:
        tester.expect(tester.load(document, Reading(document), tester.states[0], table_bytes(1)), refusal, document)
    print(f"{len(documents)} documents of {levels:,} levels")


def a_week(tester):
    """A week's file, by the call and by lines."""
    tree = week.week()
    document, nodes, state = week.document_of(tree), flat(tree), tester.states[1]
    reading = Reading(document)
    tester.expect(reading.nodes, nodes, "what expat reads of the week")
    for day, periods in tree[1]:
        for period, rooms in periods:
            busy = [label for room in rooms for label in occupied(room)]
            tester.expect(len(set(busy)), len(busy), f"rooms, classes and teachers of {day} {period}")
    for records, refusal in ((len(nodes) - 1, TABLE_FULL), (len(nodes), 0), (NODES_MAX, 0)):
        tester.expect(tester.load(document, reading, state, table_bytes(records)), refusal, f"the week into {records} records")
    tester.expect(tester.store.line(b"(user office)"), len(OK), "the login after the week")
    loaded = tester.held()
    tester.store.state, tester.store.table = Slice(state), Slice(bytes(table_bytes(NODES_MAX)))
    tester.store.lend_area(64)
    lines = list(lines_of(tree))
    for line in lines:
        answer = tester.store.answer(tester.store.line(line.encode()))
        tester.expect(answer, b"(done 1 1)\n" if line.startswith("(append") else OK, line)
    tester.expect(tester.held(), loaded, "the week by lines")
    print(f"a week of {len(nodes):,} nodes and {len(document):,} bytes: by the call, by expat and by {len(lines):,} lines")


def main():
    if len(sys.argv) != 2:
        sys.exit(__doc__)
    tester, rand = Tester(sys.argv[1]), random.Random(SEED)
    try:
        for _ in range(DOCUMENTS):
            tester.try_random(rand)
        deep_documents(tester)
        a_week(tester)
    except Broken as broken:
        sys.exit(f"FAILED: {broken}")
    classes = [("taken by both", kind) for kind in ["in all", FULL, *KINDS]]
    classes += [("of the kind, and refused", number) for number in (BANNED_LABEL, TOO_DEEP, TABLE_FULL)]
    classes += [("taken by expat alone", reason) for reason in REASONS] + [("refused by both", error) for error in ERRORS]
    for name in classes + sorted(set(tester.seen) - set(classes)):
        print(f"{tester.seen[name]:,} {name[0]}: {name[1]}")
    rare = [f"{name[0]}: {name[1]}" for name in classes if tester.seen[name] < LEAST]
    print(f"{DOCUMENTS:,} documents, seed {SEED}, {len(tester.differ)} differ")
    for text in tester.differ[:10] + rare:
        print("FAILED:", text)
    sys.exit(1 if tester.differ or rare else 0)


if __name__ == "__main__":
    main()
