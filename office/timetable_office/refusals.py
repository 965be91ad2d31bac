"""The reasons why a line or a document is refused: the one table of them.

`constant` is the name in include/timetable.h after `TIMETABLE_REFUSED_`; `reason` is the sentence of README.md, to be
read after "refused, since".
"""

from typing import NamedTuple


class Refusal(NamedTuple):
    """One row of the table."""

    number: int
    constant: str
    reason: str


TABLE: tuple[Refusal, ...] = (
    Refusal(1, "BAD_LINE", "it has more than 1,024 bytes, or a byte that is no plain ASCII character"),
    Refusal(2, "NO_FORM", "it is none of the forms: a wrong word, a bad label or tree, a space too many or too few"),
    Refusal(3, "WRONG_STAGE", "it does not fit the stage: policy, root, children, work"),
    Refusal(4, "BAD_PATH", "its path is not well formed"),
    Refusal(
        5,
        "BAD_NAME",
        "a name is unknown or declared twice, an isa line is repeated, or a role is not declared before who has it",
    ),
    Refusal(6, "RULE_BRACKET", "a rule's path has a bracket"),
    Refusal(7, "POLICY_FULL", "the policy is full: 64 subjects, 128 isa lines, 128 rules"),
    Refusal(8, "NO_USER", "nobody has logged in yet"),
    Refusal(
        9,
        "BAD_LABEL",
        "RESTRICTED is a new label or name in it, or stands in a tree or a rule's path; "
        "or a policy word is the new label of a rename or update",
    ),
    Refusal(10, "TOO_DEEP", "a node would come to a level above 11"),
    Refusal(11, "TABLE_FULL", "the whole of it needs more free records than there are"),
    Refusal(12, "AREA_SHORT", "the answer area is shorter than the answer"),
    Refusal(13, "BAD_STORE", "the lent state or table is not valid, or the two do not agree"),
    Refusal(
        14,
        "NO_DOCUMENT",
        "the document is not of the kind that is taken: one root element, tags that match, "
        "labels as names and texts, and nothing else",
    ),
    Refusal(15, "BAD_DAY", "a day is outside 1 to 366, or the first day is after the last"),
)

BAD_LINE, NO_FORM, WRONG_STAGE, BAD_PATH, BAD_NAME, RULE_BRACKET, POLICY_FULL = range(1, 8)
NO_USER, BAD_LABEL, TOO_DEEP, TABLE_FULL, AREA_SHORT, BAD_STORE, NO_DOCUMENT, BAD_DAY = range(8, 16)

_BY_NUMBER = {refusal.number: refusal for refusal in TABLE}


def reason(number: int) -> str:
    """The reason in words; a number that a newer library may give has one too."""
    known = _BY_NUMBER.get(number)
    return known.reason if known else "the library gives a number that this version of timetable-office does not know"
