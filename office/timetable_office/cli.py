"""The command `timetable-office`."""

from __future__ import annotations

import argparse
import json
import os
import resource
import sys
from datetime import datetime, timezone
from typing import Any, Callable, Sequence, TextIO

from timetable_office import __version__, maps, refusals
from timetable_office.checks import Checked, check_lines, findings_json, findings_text, has_tree
from timetable_office.completions import SHELLS, PrintCompletions
from timetable_office.decisions import Decider
from timetable_office.documents import Document, RefusedDocument, load_document
from timetable_office.errors import DONE, INTERRUPTED, NOT_TAKEN, InputError, LibraryError, OfficeError, OutputError
from timetable_office.export import export_document, export_lines, policy_lines
from timetable_office.formats import LOG_FORMATS, VIEW_FORMATS
from timetable_office.layout import load_library
from timetable_office.library import LIBRARY_VARIABLE, RECORDS_MAXIMUM, Session
from timetable_office.lines import STANDARD_INPUT, Lines, read_lines, read_source
from timetable_office.publish import Published, publish_views
from timetable_office.replace import replace_policy
from timetable_office.runs import Answered, RefusedLine, run_lines
from timetable_office.sheets import Sheets, write_sheets
from timetable_office.state import read_policy
from timetable_office.store import WAIT_SECONDS, Contents, Store, create_store
from timetable_office.tree import FIRST_DAY, LAST_DAY, WHOLE_YEAR, read_table, read_view, read_windows
from timetable_office.views import NO_TREE, declared_name, on_day, view_of
from timetable_office.why import explain_nodes, why_json, why_text

PROGRAM = "timetable-office"
STACK_BYTES = 4 << 20
_PROGRESS_STEP = 100
_CLEAR_LINE, _RED, _PLAIN = "\r\x1b[K", "\x1b[31m", "\x1b[0m"
_STATUS = """exit status:
  0  everything was done
  1  a line or a document was refused, or a name is unknown; the store is as it was, except with `run --keep-going`
     (for `check`: something was found)
  2  the command line is wrong
  3  the store, the library or a file cannot be used; the store is as it was
  4  the rules as timetable-office reads them do not give the view that the library shows; nothing is told
"""


def say(text: str) -> None:
    """A message to the user, on standard error; without one there is nobody to tell."""
    if sys.stderr is not None:
        print(text, file=sys.stderr)


def is_terminal(stream: TextIO | None) -> bool:
    """Whether somebody sits before this stream. Python has none where the shell has closed it."""
    return stream is not None and stream.isatty()


def complain(text: str) -> None:
    """A message on what went wrong: red where a terminal shows it."""
    if is_terminal(sys.stderr):
        # over the progress line, if there is one
        text = _CLEAR_LINE + (text if "NO_COLOR" in os.environ else _RED + text + _PLAIN)
    say(text)


def put(text: str | bytes) -> None:
    """Writes to standard output, all of it and at once, so that a full disk or a closed pipe is an error here."""
    data = text.encode("utf-8") if isinstance(text, str) else text
    if sys.stdout is None:
        raise OutputError("the answer cannot be written: standard output is closed")
    try:
        sys.stdout.buffer.write(data)
        sys.stdout.buffer.flush()
    except OSError as error:
        # nothing is left for the interpreter to write when it ends
        os.dup2(os.open(os.devnull, os.O_WRONLY), sys.stdout.fileno())
        raise OutputError(f"the answer cannot be written: {error.strerror}") from error


def show_progress(total: int, word: str = "line", step: int = _PROGRESS_STEP) -> Callable[[int], None]:
    """A line that counts, on a terminal alone."""
    if not is_terminal(sys.stderr) or total < 2 * step:
        return lambda count: None

    def count_up(count: int) -> None:
        """Writes the count over the one before."""
        if count % step == 0 or count == total:
            end = "\n" if count == total else ""
            print(f"\r{count:,} of {counted(total, word)}", end=end, file=sys.stderr, flush=True)

    return count_up


def counted(number: int, word: str) -> str:
    """A number with its word: `1 line`, `2 lines`."""
    return f"{number:,} {word}" if number == 1 else f"{number:,} {word}s"


def new(options: argparse.Namespace) -> int:
    """Makes an empty store."""
    library = load_library(options.library)
    session = library.session(options.records)
    create_store(options.store, Contents(session.state, session.table))
    say(f"{options.store}: an empty store for {counted(options.records, 'node')}")
    return DONE


def take_lines(source: str) -> Lines:
    """The lines of a file; a last line without its line feed is taken, and told."""
    if source == STANDARD_INPUT and is_terminal(sys.stdin):
        say("type lines, and end with Ctrl-D")
    given = read_lines(source)
    if not given.last_line_feed:
        say(f"{given.at(given.lines[-1])}: note: the last line has no line feed; it counts as a line all the same")
    return given


def run(options: argparse.Namespace) -> int:
    """Gives lines to a store, all of them or none."""
    library = load_library(options.library)
    with Store(options.store, options.wait) as store:
        given = take_lines(options.file)
        with store.transaction():
            session = store.session(library)
            try:
                done = run_lines(
                    session, given, keep_going=options.keep_going, progress=show_progress(len(given.lines))
                )
            except RefusedLine as refused:
                if options.json:
                    put(run_json(given, [refused.answered], kept=False))
                raise
            # before the answers, so that a full disk is found while nothing is printed
            store.write(Contents(done.state, done.table), "run", done.log)
            for answered in done.refused():
                complain(f"{given.at(answered.line)}: {answered.complaint()}")
            if options.json:
                put(run_json(given, done.answered, kept=True))
            elif not options.quiet:
                put(b"".join(answer_text(answered) for answered in done.answered))
    return NOT_TAKEN if done.refused() else DONE


def answer_text(answered: Answered) -> bytes:
    """What the program `timetable` prints for a line."""
    return b"(refused %d)\n" % answered.refused.number if answered.refused else answered.answer


def run_json(given: Lines, answered: Sequence[Answered], kept: bool) -> str:
    """A run as JSON: whether the store keeps it, and each line with its answer or its refusal."""
    lines: list[dict[str, Any]] = []
    for one in answered:
        line: dict[str, Any] = {"line": one.line.number, "form": one.form}
        if one.refused:
            line |= {"refused": one.refused.number, "reason": refusals.reason(one.refused.number), "advice": one.advice}
        else:
            line |= {"answer": one.answer.decode("ascii").splitlines()}
        lines.append(line)
    return json.dumps({"file": given.name, "kept": kept, "lines": lines}, indent=2) + "\n"


def load(options: argparse.Namespace) -> int:
    """Takes the solver's file into a store that has no tree, all of it or nothing."""
    library = load_library(options.library)
    with Store(options.store, options.wait) as store:
        given = Document(*read_source(options.file))
        with store.transaction():
            try:
                done = load_document(store.session(library), given)
            except RefusedDocument as refused:
                if options.json:
                    put(load_json(given, refused))
                raise
            nodes = len(read_table(done.table))
            store.write(Contents(done.state, done.table), "load", done.log)
            if options.json:
                put(load_json(given, nodes))
    say(f"{options.store}: {counted(nodes, 'node')} from {given.name}")
    return DONE


def load_json(given: Document, done: int | RefusedDocument) -> str:
    """A document that was loaded, with the number of its nodes, or refused, as JSON."""
    told: dict[str, Any] = {"file": given.name, "kept": isinstance(done, int)}
    if isinstance(done, int):
        told |= {"nodes": done}
    else:
        number, advice = done.refused.number, done.advice
        told |= {"refused": number, "reason": refusals.reason(number), "advice": advice.words if advice else ""}
        told |= dict(zip(("line", "column"), done.place or ()))
    return json.dumps(told, indent=2) + "\n"


def policy(options: argparse.Namespace) -> int:
    """Gives a stored tree a new policy."""
    library = load_library(options.library)
    with Store(options.store, options.wait) as store:
        given = take_lines(options.file)
        with store.transaction():
            made = replace_policy(store.session(library), given)
            store.write(Contents(made.state, made.table), "policy", made.log)
    held = read_policy(made.state)
    numbers = {"subject": len(held.subjects), "isa line": len(held.isa), "rule": len(held.rules)}
    parts = ", ".join(counted(number, word) for word, number in numbers.items())
    say(f"{options.store}: {parts} over {counted(len(read_table(made.table)), 'node')}")
    return DONE


def show(options: argparse.Namespace) -> int:
    """Shows what one subject sees. The store stays as it is."""
    library = load_library(options.library)
    with Store(options.store, options.wait) as store:
        session = on_day(store.session(library), options.day)
        name = declared_name(session, options.name)
        answer = view_of(session, name)
    tell_day(options.store, session, options.day)
    put(VIEW_FORMATS[options.format](name, answer))
    if not read_view(answer):
        say(f"{name} is shown nothing")
    return DONE


def publish(options: argparse.Namespace) -> int:
    """Publishes views as a folder of pages, all of them or none. The store stays as it is."""
    library = load_library(options.library)
    with Store(options.store, options.wait) as store:
        done = publish_views(
            lambda: store.session(library),
            options.names,
            options.out,
            options.wait,
            options.day,
            lambda total: show_progress(total, "view", 1),
        )
        tell_day(options.store, store.session(library), options.day)
    for reader in done.readers:
        if reader.nodes == 0:
            say(f"{options.out}: note: {reader.name} is shown nothing")
    tell_dropped(options.out, done.dropped)
    say(f"{options.out}: {counted(len(done.readers), 'view')} of {options.store}")
    if options.json:
        put(published_json(done))
    return DONE


def published_json(done: Published) -> str:
    """A publication as JSON."""
    readers = [{"reader": reader.name, "shown": reader.nodes, "files": reader.files} for reader in done.readers]
    made = {
        "folder": done.folder,
        "publication": done.publication.mark,
        "time": done.publication.time.isoformat(timespec="seconds"),
        "day": done.publication.day or FIRST_DAY,
        "store": done.digest,
        "readers": readers,
        "dropped": done.dropped,
    }
    return json.dumps(made, indent=2) + "\n"


def sheets(options: argparse.Namespace) -> int:
    """Writes the sheets of room doors as one reader sees them, all of them or none. The store stays as it is."""
    library = load_library(options.library)
    with Store(options.store, options.wait) as store:
        done = write_sheets(
            lambda: store.session(library), options.name, options.rooms, options.out, options.wait, options.day
        )
        tell_day(options.store, store.session(library), options.day)
    for sheet in done.sheets:
        if sheet.blank:
            say(f"{options.out}: note: the sheet of {sheet.room} is blank")
    tell_dropped(options.out, done.dropped)
    say(f"{options.out}: {counted(len(done.sheets), 'sheet')} of {options.store} for {done.reader}")
    if options.json:
        put(sheets_json(done))
    return DONE


def sheets_json(done: Sheets) -> str:
    """The sheets that were written as JSON."""
    sheets = [sheet._asdict() for sheet in done.sheets]
    made = {
        "folder": done.folder,
        "reader": done.reader,
        "day": done.day or FIRST_DAY,
        "sheets": sheets,
        "dropped": done.dropped,
    }
    return json.dumps(made, indent=2) + "\n"


def tell_day(path: str, session: Session, day: int | None) -> None:
    """Tells that a day was not asked for, where one day shows another tree than the next."""
    if day is None and any(window != WHOLE_YEAR for window in read_windows(session.table)):
        say(f"{path}: note: some nodes are shown on some days alone; this is day {FIRST_DAY}, and --day D is another")


def tell_dropped(out: str, dropped: Sequence[str]) -> None:
    """Tells which files of the folder have no successor."""
    if dropped:
        say(f"{out}: note: no longer there: {', '.join(dropped)}")


def log(options: argparse.Namespace) -> int:
    """Prints the log."""
    with Store(options.store, options.wait) as store:
        put(LOG_FORMATS[options.format](store.entries()))
    return DONE


def export(options: argparse.Namespace) -> int:
    """Prints the lines that give the store's policy and tree, or the document that gives its tree."""
    library = load_library(options.library)
    with Store(options.store, options.wait) as store:
        session = store.session(library)
    if options.xml:
        put(export_document(session))
        return DONE
    lines = policy_lines(session) if options.policy else export_lines(session)
    put(b"".join(line + b"\n" for line in lines))
    return DONE


def why(options: argparse.Namespace) -> int:
    """Tells which rule decides each right of a reader on the nodes that a path selects in the stored tree."""
    library = load_library(options.library)
    with Store(options.store, options.wait) as store:
        session = store.session(library)
    explained = explain_nodes(session, options.name, options.path)
    put(why_json(explained) if options.json else why_text(explained))
    return DONE


def check(options: argparse.Namespace) -> int:
    """Tells what a policy writer gets wrong. The store stays as it is."""
    library = load_library(options.library)
    tree = None
    if options.tree is not None:
        with Store(options.tree, options.wait) as store:
            tree = store.session(library)
    if options.store != STANDARD_INPUT and is_database(options.store):
        if tree is not None:
            raise InputError("--tree is for the lines of a policy: a store has a tree of its own")
        with Store(options.store, options.wait) as store:
            checked = Checked(options.store, Decider(store.session(library)))
    else:
        checked = check_lines(library, take_lines(options.store), tree)
    held = checked.decider.policy
    found = checked.findings(show_progress(len(held.subjects), "subject", 1))
    put(findings_json(checked, found) if options.json else findings_text(checked, found))
    if not has_tree(checked.decider):
        say(f"{checked.name}: note: there is no tree, so what the rules select is not checked")
    rules, nodes = counted(len(held.rules), "rule"), counted(len(checked.decider.nodes), "node")
    say(f"{checked.name}: {counted(len(found), 'finding')} in {rules} over {nodes}")
    return NOT_TAKEN if found else DONE


def make_map(options: argparse.Namespace) -> int:
    """Writes the coloured map, nodes by subjects. The store stays as it is."""
    library = load_library(options.library)
    with Store(options.store, options.wait) as store:
        session = store.session(library)
    decider = Decider(session)
    if not decider.nodes:
        raise InputError(NO_TREE)
    decisions = decider.decide_all(show_progress(len(decider.policy.subjects), "subject", 1))
    digest = Contents(session.state, session.table).digest().hex()[:12]
    time = datetime.now(timezone.utc).strftime("%Y-%m-%d %H:%M UTC")
    foot = maps.Foot(os.path.basename(options.store), time, digest)
    maps.write_page(options.out, maps.map_page(decider, decisions, foot))
    nodes, subjects = counted(len(decider.nodes), "node"), counted(len(decisions), "subject")
    say(f"{options.out}: {nodes} by {subjects}, for the office alone")
    return DONE


def is_database(path: str) -> bool:
    """Whether a file is a store rather than a list of lines; one that cannot be read is told by whoever reads it."""
    # what comes through a pipe can be read once
    if not os.path.isfile(path):
        return False
    try:
        with open(path, "rb") as file:
            return b"\0" in file.read(100)
    except OSError:
        return False


def record_count(text: str) -> int:
    """A number of records, for argparse."""
    digits = text.replace(",", "")
    if not digits.isdecimal() or not 1 <= int(digits) <= RECORDS_MAXIMUM:
        raise argparse.ArgumentTypeError(f"a table has 1 to {RECORDS_MAXIMUM:,} records")
    return int(digits)


def day_number(text: str) -> int:
    """A day of the year, for argparse."""
    if not text.isdecimal() or not FIRST_DAY <= int(text) <= LAST_DAY:
        raise argparse.ArgumentTypeError(f"days run from {FIRST_DAY} to {LAST_DAY}")
    return int(text)


def make_parser() -> argparse.ArgumentParser:
    """The command line."""
    common = argparse.ArgumentParser(add_help=False)
    common.add_argument("--library", metavar="FILE", help=f"the proved library; also in {LIBRARY_VARIABLE}")
    common.add_argument(
        "--wait",
        metavar="SECONDS",
        type=float,
        default=WAIT_SECONDS,
        help="how long to wait for another command on the same store (%(default)g)",
    )
    parser = argparse.ArgumentParser(
        prog=PROGRAM,
        description="Keeps a school's timetable in one file, and shows each reader what the rules allow.",
        epilog=_STATUS,
        formatter_class=argparse.RawDescriptionHelpFormatter,
    )
    parser.add_argument("--version", action="version", version=f"%(prog)s {__version__}")
    parser.add_argument(
        "--completions",
        metavar="SHELL",
        choices=list(SHELLS),
        action=PrintCompletions,
        help=f"print completions for a shell ({', '.join(SHELLS)}) and exit",
    )
    commands = parser.add_subparsers(title="commands", metavar="COMMAND", required=True)

    def command(
        name: str,
        work: Callable[[argparse.Namespace], int],
        summary: str,
        text: str,
        store: tuple[str, str] = ("STORE", "the file of the store"),
    ) -> argparse.ArgumentParser:
        """A command with what all commands have."""
        added = commands.add_parser(
            name,
            parents=[common],
            help=summary,
            description=text,
            epilog=_STATUS,
            formatter_class=argparse.RawDescriptionHelpFormatter,
        )
        added.add_argument("store", metavar=store[0], help=store[1])
        added.set_defaults(work=work)
        return added

    made = command("new", new, "make an empty store", "Makes an empty store. A file that is there is never replaced.")
    made.add_argument(
        "--records",
        metavar="N",
        type=record_count,
        default=RECORDS_MAXIMUM,
        help="how many nodes it has room for, the hidden ones too: give it room to spare (%(default)s)",
    )

    made = command(
        "run",
        run,
        "give lines to a store",
        "Gives the lines of a file to a store and prints their answers. The first refused line ends it, and the store\n"
        "stays as it was. A login and a day last to the end of the run: the next one begins with nobody logged in.",
    )
    add_file(made)
    made.add_argument("--keep-going", action="store_true", help="pass over refused lines, as timetable does")
    made.add_argument("-q", "--quiet", action="store_true", help="print no answers")
    made.add_argument("--json", action="store_true", help="print the answers as JSON")

    made = command(
        "load",
        load,
        "load the file that a timetable solver writes",
        "Takes an XML document into a store that has no tree, in place of root and child lines: its elements and\n"
        "texts are the nodes. Where it is not of the kind that is taken, the line and the column are told, and the\n"
        "store stays as it was.",
    )
    made.add_argument("file", metavar="FILE.xml", help="the document; - is standard input")
    made.add_argument("--json", action="store_true", help="print what was loaded, or why not, as JSON")

    made = command(
        "show",
        show,
        "show what one reader sees",
        "Shows what this one subject sees. The store stays as it is.",
    )
    made.add_argument("--as", dest="name", metavar="NAME", required=True, help="the subject whose view it is")
    add_day(made)
    add_format(made, VIEW_FORMATS)

    made = command(
        "publish",
        publish,
        "write every reader's page into a folder",
        "Writes the view of every subject, or of those named, as HTML, CSV and JSON, with an index page. The folder\n"
        "is replaced whole: all its pages are of one state of the store, and on any error the old ones stay. Pages of\n"
        "readers who are not named go. A folder with other files in it is never replaced.",
    )
    made.add_argument("--out", metavar="DIR", required=True, help="the folder")
    made.add_argument(
        "--as",
        dest="names",
        metavar="NAME",
        action="append",
        default=[],
        help="a subject whose view it is; give it once for each (all of them)",
    )
    add_day(made)
    made.add_argument("--json", action="store_true", help="print what was published as JSON")

    made = command(
        "sheets",
        sheets,
        "write a sheet for each room door into a folder",
        "Writes a text file for each room, what `(sheet ROOM)` answers to this one subject: a week with a column for\n"
        "each day and a row for each period. The folder is replaced whole: all its sheets are of one state of the\n"
        "store, and on any error the old ones stay. Sheets of rooms that are not named go. A folder with other files\n"
        "in it is never replaced.",
    )
    made.add_argument("--as", dest="name", metavar="NAME", required=True, help="the subject whose view it is made from")
    made.add_argument("--out", metavar="DIR", required=True, help="the folder")
    made.add_argument(
        "--room",
        dest="rooms",
        metavar="ROOM",
        action="append",
        default=[],
        help="a room; give it once for each (all rooms that the subject is shown below a period)",
    )
    add_day(made)
    made.add_argument("--json", action="store_true", help="print what was written as JSON")

    made = command(
        "policy",
        policy,
        "give a stored tree new rules",
        "Replaces the policy by the subject, isa and rule lines of a file. The tree stays as it is.",
    )
    add_file(made)

    made = command(
        "log",
        log,
        "list who gave which form when",
        "Lists who gave which form when, with its counts. It holds no label of the tree and no path.",
    )
    add_format(made, LOG_FORMATS)

    made = command(
        "export",
        export,
        "print lines that give this store again",
        "Prints lines that give the policy and the tree of a store, or a document that gives its tree to `load`.\n"
        "They are tried on an empty store first.",
    )
    part = made.add_mutually_exclusive_group()
    part.add_argument("--policy", action="store_true", help="the policy alone, for `policy` to read when it is edited")
    part.add_argument("--xml", action="store_true", help="the tree alone, as a document for `load`, however large")

    made = command(
        "check",
        check,
        "tell what a policy writer gets wrong (for the office alone)",
        "Tells what is wrong, or may be, with a policy: rules that do nothing, words that no node has, labels that\n"
        "stay readable, subjects without rules. A list of lines is run on a new store in memory.",
        ("STORE|FILE", "a store, or a list of lines; - is standard input"),
    )
    made.add_argument("--tree", metavar="STORE", help="check the policy of a list of lines over the tree of this store")
    made.add_argument("--json", action="store_true", help="print the findings as JSON")

    made = command(
        "why",
        why,
        "tell which rules decide on a node (for the office alone)",
        "Tells for each node that a path selects in the stored tree, hidden ones too, which rule decides each right\n"
        "of this subject, and which nodes above hide it. PATH is a path as commands have it: //lesson[2]/room.",
    )
    made.add_argument("--as", dest="name", metavar="NAME", required=True, help="the subject that it is asked for")
    made.add_argument("path", metavar="PATH", help="the nodes that it is asked for")
    made.add_argument("--json", action="store_true", help="print it as JSON")

    made = command(
        "map",
        make_map,
        "write the coloured map, nodes by subjects (for the office alone)",
        "Writes one HTML page that shows what every subject sees of every node, and may change there. It shows every\n"
        "label of the stored tree, so it is for the office alone: only its owner can read the file.",
    )
    made.add_argument("--out", metavar="FILE.html", required=True, help="the page; an older map there is replaced")
    return parser


def add_file(parser: argparse.ArgumentParser) -> None:
    """The list of lines that a command reads."""
    words = "a list of lines; - is standard input"
    parser.add_argument("file", metavar="FILE", nargs="?", default=STANDARD_INPUT, help=words)


def add_day(parser: argparse.ArgumentParser) -> None:
    """The option `--day`."""
    words = f"the day of the year on which it is shown, {FIRST_DAY} to {LAST_DAY} ({FIRST_DAY})"
    parser.add_argument("--day", metavar="D", type=day_number, help=words)


def add_format(parser: argparse.ArgumentParser, formats: dict[str, Any]) -> None:
    """The options `--format` and `--json`."""
    parser.add_argument("--format", choices=list(formats), default="text", help="how to print it (%(default)s)")
    parser.add_argument("--json", dest="format", action="store_const", const="json", help="the same as --format json")


def check_stack() -> None:
    """The library needs 1,280 KiB of stack, and Python some more."""
    limit = resource.getrlimit(resource.RLIMIT_STACK)[0]
    if limit != resource.RLIM_INFINITY and limit < STACK_BYTES:
        raise LibraryError(f"the stack is limited to {limit >> 10:,} KiB; `ulimit -s 8192` gives the library enough")


def main(words: Sequence[str] | None = None) -> int:
    """Runs one command and returns its exit status."""
    options = make_parser().parse_args(words)
    try:
        check_stack()
        status: int = options.work(options)
        return status
    except OfficeError as error:
        complain(str(error) if isinstance(error, RefusedLine | RefusedDocument) else f"{PROGRAM}: {error}")
        if isinstance(error, InputError) and options.work in (run, load, policy):
            say(f"{PROGRAM}: {options.store} is as it was")
        if isinstance(error, InputError) and options.work in (publish, sheets):
            say(f"{PROGRAM}: {options.out} is as it was, and nothing is published")
        return error.status
    except KeyboardInterrupt:
        complain(f"{PROGRAM}: interrupted; {options.store} is as it was")
        return INTERRUPTED
