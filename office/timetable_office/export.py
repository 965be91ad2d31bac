"""The lines that give a policy and a tree, and the document that gives a tree.

A `child` line gives a whole tree below the root, so by child lines alone a tree below the root has to fit 1,024 bytes.
A larger one is given with its first nodes, in document order, and the others are added by `append` lines. Those need a
login: a subject of this very policy who sees all that stands before and has insert where nodes are added. Without one
nothing is exported, and the part that is too large is told. So it is with windows, which `window` lines give to nodes
on which a subject has read and update.

A document has no such limit: `load` takes it where the policy has been given by its lines. A tree has one if its root
and every node with nodes below it can be the name of an element, no two neighbours both have to be texts, and all nodes
are shown on all days.

Lines and document are given to an empty store before they are shown, and have to leave the same policy and table.
"""

from __future__ import annotations

from bisect import bisect_right
from typing import Callable, Iterator, Sequence
from xml.etree import ElementTree

from timetable_office.errors import InputError
from timetable_office.library import LINE_MAXIMUM, Refused, Session
from timetable_office.lines import Lines, split_lines
from timetable_office.runs import run_lines
from timetable_office.state import Stage, policy_part, read_policy, stage_of
from timetable_office.tree import WHOLE_YEAR, Node, Window, read_table, read_windows, subtree_end, tree_text
from timetable_office.views import NO_TREE

_ONE_DONE = b"(done 1 1)\n"
# What the name of an element does not begin with; any other label is a name too.
_NO_NAME = tuple("0123456789-.")


def policy_lines(session: Session) -> list[bytes]:
    """The lines that give the policy of a store, checked by the library."""
    lines = read_policy(session.state).lines()
    empty = session.library.session(records=1)
    run_lines(empty, _listed(lines))
    if policy_part(empty.state) != policy_part(session.state):
        raise InputError("the policy cannot be given by lines")
    return lines


def export_lines(session: Session) -> list[bytes]:
    """The lines that give the policy and the tree of a store, checked by the library."""
    lines = policy_lines(session)
    nodes = read_table(session.table)
    if nodes:
        lines.append(b"(root " + nodes[0].label.encode("ascii") + b")")
        child_lines, left = _child_lines(nodes)
        lines += child_lines
        givers = _Givers(session, lines)
        _append(givers, nodes, left)
        _give_windows(givers, nodes, read_windows(session.table))
        lines += givers.lines
    _check(session, lines)
    return lines


def export_document(session: Session) -> bytes:
    """The document that gives the tree of a store, checked by the library."""
    nodes = read_table(session.table)
    if not nodes:
        raise InputError(NO_TREE)
    if any(window != WHOLE_YEAR for window in read_windows(session.table)):
        raise InputError(
            "the tree has no document: some nodes are shown on some days alone, which a document does not tell. "
            "`export` without --xml gives their windows by lines"
        )
    root = _element(nodes)
    ElementTree.indent(root)
    document = ElementTree.tostring(root, short_empty_elements=False) + b"\n"
    made = session.library.session(records=session.records)
    run_lines(made, _listed(policy_lines(session)))
    made.load_xml(document)
    if policy_part(made.state) != policy_part(session.state) or made.table != session.table:
        raise InputError("the document of this tree does not give the same tree again; nothing is exported")
    return document


def _element(nodes: Sequence[Node]) -> ElementTree.Element:
    """The root element. A node without children is a text if it is alone below its parent, or can be no name."""
    above: list[ElementTree.Element] = []
    for place, node in enumerate(nodes):
        end = place + 1 == len(nodes) or nodes[place + 1].level < node.level
        leaf = end or nodes[place + 1].level == node.level
        named = not node.label.startswith(_NO_NAME)
        del above[node.level :]
        if node.level > 0 and leaf and (not named or (end and nodes[place - 1].level < node.level)):
            _add_text(above[-1], node.label)
        elif named:
            made = ElementTree.SubElement(above[-1], node.label) if above else ElementTree.Element(node.label)
            above.append(made)
        else:
            raise InputError(
                f"the tree has no document: {node.label} is the root or has nodes below it, and the name of an element "
                "does not begin with a digit, hyphen or full stop"
            )
    return above[0]


def _add_text(parent: ElementTree.Element, label: str) -> None:
    before = (parent[-1].tail if len(parent) else parent.text) or ""
    if before:
        raise InputError(f"the tree has no document: {before} and {label} are neighbours and both have to be texts")
    if len(parent):
        parent[-1].tail = label
    else:
        parent.text = label


def _listed(lines: Sequence[bytes]) -> Lines:
    return split_lines("export", b"".join(line + b"\n" for line in lines))


def _fitting_end(nodes: Sequence[Node], start: int, room: int) -> int:
    """The end of the longest run of nodes from `start`, all below it, whose text fits. It is `start` if none does."""
    ends = range(start + 1, subtree_end(nodes, start) + 1)
    fitting = bisect_right(ends, room, key=lambda end: len(tree_text(nodes[start:end])))
    return start + fitting


def _child_lines(nodes: Sequence[Node]) -> tuple[list[bytes], list[range]]:
    """A child line for each tree below the root, and the places of the nodes that had no room in it."""
    lines, left = [], []
    start = 1
    while start < len(nodes):
        end = subtree_end(nodes, start)
        fitting = _fitting_end(nodes, start, LINE_MAXIMUM - len(b"(child )"))
        lines.append(b"(child " + tree_text(nodes[start:fitting]) + b")")
        if fitting < end:
            left.append(range(fitting, end))
        start = end
    return lines, left


def _positions(nodes: Sequence[Node]) -> list[bytes]:
    """For each node a path that selects it alone where every node is shown: `/*/*[2]/*[1]`."""
    paths: list[bytes] = []
    # for each level the number of siblings so far and the path of the last of them
    siblings: list[int] = []
    above: list[bytes] = []
    for node in nodes:
        del siblings[node.level + 1 :], above[node.level :]
        if len(siblings) == node.level:
            siblings.append(0)
        siblings[node.level] += 1
        path = b"/*" if node.level == 0 else above[node.level - 1] + b"/*[%d]" % siblings[node.level]
        above.append(path)
        paths.append(path)
    return paths


def _appends(nodes: Sequence[Node], paths: Sequence[bytes], places: range) -> Iterator[bytes]:
    """Append lines for the nodes of these places, in document order: all before each is there by then."""
    start = places.start
    while start < places.stop:
        parent = next(place for place in reversed(range(start)) if nodes[place].level < nodes[start].level)
        head = b"(append " + paths[parent] + b" "
        end = _fitting_end(nodes, start, LINE_MAXIMUM - len(head) - len(b")"))
        yield head + tree_text(nodes[start:end]) + b")"
        start = end


class _Givers:
    """Lines that complete a tree, each part given by the first subject of the policy who may."""

    def __init__(self, session: Session, before: Sequence[bytes]) -> None:
        """The lines before are those of the policy, the root and its children."""
        self._made = session.library.session(records=session.records)
        run_lines(self._made, _listed(before))
        # whoever is logged in is tried first for the next part, and need not log in again
        self._names = list(read_policy(session.state).subjects)
        self.lines: list[bytes] = []

    def give(self, lines: Sequence[bytes], right: Callable[[bytes], bool]) -> bool:
        """Whether some subject may give these lines, each of which does one thing, and leaves a right table by them."""
        for name in self._names:
            login = f"(user {name})".encode("ascii")
            tried = self._made.copy()
            if _adds(tried, [login, *lines]) and right(tried.table):
                break
        else:
            return False
        self._made = tried
        self.lines += lines if self.lines and self._names[0] == name else [login, *lines]
        self._names.remove(name)
        self._names.insert(0, name)
        return True


def _append(givers: _Givers, nodes: Sequence[Node], left: Sequence[range]) -> None:
    """Adds the nodes that had no room in child lines."""
    paths = _positions(nodes)
    for places in left:
        whole = nodes[: places.stop]
        appends = list(_appends(nodes, paths, places))
        if not givers.give(appends, lambda table, whole=whole: read_table(table)[: len(whole)] == whole):
            raise InputError(_too_large(nodes, places))


def _give_windows(givers: _Givers, nodes: Sequence[Node], windows: Sequence[Window]) -> None:
    """Gives nodes their windows, last ones first: so none is hidden, or counted in another place, before its turn."""
    paths = _positions(nodes)
    for place in reversed(range(len(nodes))):
        window = windows[place]
        if window == WHOLE_YEAR:
            continue
        line = b"(window %s %d %d)" % (paths[place], *window)
        if not givers.give([line], lambda table, place=place: read_windows(table)[place:] == list(windows[place:])):
            raise InputError(
                f"the tree is not exported: {nodes[place].label}, node {place + 1}, is shown on days {window[0]} to "
                f"{window[1]} alone, and no subject of this policy sees all that stands before it and has read and "
                "update on it, so no line gives it this window. A copy of the store's file keeps it."
            )


def _adds(session: Session, lines: Sequence[bytes]) -> bool:
    """Whether the first line logs in, and each of the others adds one tree or gives one window."""
    try:
        session.line(lines[0])
        return all(session.line(line) == _ONE_DONE for line in lines[1:])
    except Refused:
        return False


def _too_large(nodes: Sequence[Node], places: range) -> str:
    """Why a tree is not exported: the part below the root to which these places belong is too large for a line."""
    parts = [node.label for node in nodes[: places.start] if node.level == 1]
    return (
        f"the tree is not exported: {parts[-1]}, number {len(parts)} below the root, does not fit a child line of "
        f"{LINE_MAXIMUM:,} bytes. The rest of it would be added by append lines, but no subject of this policy sees "
        "all that stands before it and has insert where nodes are to be added. `export --policy` gives the policy, and "
        "`export --xml` a document for `load`, which gives the tree; a copy of the store's file keeps both."
    )


def _check(session: Session, lines: Sequence[bytes]) -> None:
    """The lines, given to an empty store, leave the same policy and table, and a stage that takes the same forms."""
    run = run_lines(session.library.session(records=session.records), _listed(lines))
    # once there is a root, a store takes the same forms whether or not it has had a child line
    stages = [min(stage_of(state), Stage.ROOT) for state in (run.state, session.state)]
    if policy_part(run.state) != policy_part(session.state) or run.table != session.table or stages[0] != stages[1]:
        raise InputError("the lines of this store do not give the same store again; nothing is exported")
