#!/usr/bin/env python3
"""week.py [--seed N] [--classes N]: writes the XML that a solver writes for a week of a secondary school, some 6,000 nodes for 24 classes.

    school > mon .. fri > p1 .. p8 > R12 .. > what stands on the door, and the lesson > class, teacher, note

No room, class or teacher is in two places at once. A room stands below its period under its own name, and the text that comes first in it is
what a sheet for its door prints (document 02, card 3: "the first child's label of the first child labelled ROOM" of the period). Behind it
stands the lesson of document 01's example, less its room, so that the rules written for lessons and notes apply as they are, and one rule on
//lesson keeps from a reader all that is not on the door. A text may begin with a digit, a name may not: a class can be no element, a room can.
The same seed gives the same bytes.
"""

import argparse
import collections
import itertools
import random
import sys

SEED, CLASSES, CLASSES_MAX = 1, 24, 182
DAYS, PERIODS, LESSONS_A_DAY = ("mon", "tue", "wed", "thu", "fri"), range(1, 9), 7
YEARS = range(7, 14)
# The lessons of a class in a week, and the rooms that a course needs: together one period of each day is free.
COURSES = {
    "maths": (5, "R"),
    "english": (5, "R"),
    "french": (4, "R"),
    "history": (2, "R"),
    "geography": (2, "R"),
    "religion": (2, "R"),
    "physics": (2, "lab"),
    "chemistry": (2, "lab"),
    "biology": (2, "lab"),
    "PE": (3, "gym"),
    "art": (2, "studio"),
    "music": (2, "music"),
    "IT": (2, "IT"),
}
# How many lessons of a week a teacher gives, and a room holds, if all are alike.
TEACHER_LESSONS, ROOM_LESSONS = 22, 28
FIRST_ROOM = {"R": 10}
NOTES, LESSONS_A_NOTE = ("ill", "exam", "trip", "moved", "guest"), 12

Lesson = collections.namedtuple("Lesson", "room class_ course teacher")


def needed(lessons, each):
    """How many teachers or rooms are needed for so many lessons."""
    return -(-lessons // each)


def classes_of(count):
    """The names of so many classes: 7A, 7B, .. 8A, .."""
    letters = "ABCDEFGHIJKLMNOPQRSTUVWXYZ"[: needed(count, len(YEARS))]
    return [f"{year}{letter}" for year in YEARS for letter in letters][:count]


def staff_of(rand, classes):
    """Who teaches a course in a class. SHA teaches maths in the first one."""
    codes = ["".join(code) for code in itertools.product("BCDFGHKLMNPRSTVW", "AEIOU", "BDFGKLMNRST")]
    codes = iter(["SHA"] + rand.sample(codes, len(codes)))
    staff = {}
    for course, (weekly, _) in COURSES.items():
        teachers = list(itertools.islice(codes, needed(len(classes) * weekly, TEACHER_LESSONS)))
        staff.update({(class_, course): teachers[k % len(teachers)] for k, class_ in enumerate(classes)})
    return staff


def rooms_of(classes):
    """The rooms of each kind: R10, R11, .. and lab1, .."""
    lessons = collections.Counter()
    for weekly, kind in COURSES.values():
        lessons[kind] += weekly * len(classes)
    return {kind: [f"{kind}{FIRST_ROOM.get(kind, 1) + k}" for k in range(needed(count, ROOM_LESSONS))] for kind, count in lessons.items()}


def plan(rand, classes):
    """The lessons of each day and period. Each class in turn gets the course of which it lacks most, among those that it has not had on that
    day and whose teacher and some room are free; where there is none, the period is free."""
    staff, rooms = staff_of(rand, classes), rooms_of(classes)
    left = {class_: {course: weekly for course, (weekly, _) in COURSES.items()} for class_ in classes}
    lessons = {}
    for day in DAYS:
        had = collections.defaultdict(set)
        free = {class_: rand.choice((5, 6, 8, 8)) for class_ in classes}
        for period in PERIODS:
            busy, held = set(), []
            for class_ in rand.sample(classes, len(classes)):
                if len(had[class_]) == LESSONS_A_DAY or (period == free[class_] and len(had[class_]) == period - 1):
                    continue
                open_rooms = {kind: [room for room in rooms[kind] if room not in busy] for kind in rooms}
                courses = [
                    course
                    for course, (_, kind) in COURSES.items()
                    if left[class_][course] and course not in had[class_] and staff[class_, course] not in busy and open_rooms[kind]
                ]
                if not courses:
                    continue
                course = max(courses, key=lambda course: (left[class_][course], rand.random()))
                lesson = Lesson(rand.choice(open_rooms[COURSES[course][1]]), class_, course, staff[class_, course])
                left[class_][course] -= 1
                had[class_].add(course)
                busy.update((lesson.room, lesson.teacher))
                held.append(lesson)
            lessons[day, period] = sorted(held)
    return lessons


def leaf(label, text):
    return label, [(text, [])]


def room_tree(rand, lesson):
    notes = [leaf("note", rand.choice(NOTES))] if rand.randrange(LESSONS_A_NOTE) == 0 else []
    about = ("lesson", [leaf("class", lesson.class_), leaf("teacher", lesson.teacher)] + notes)
    return lesson.room, [(f"{lesson.class_}-{lesson.course}", []), about]


def week(seed=SEED, classes=CLASSES):
    """The tree of a week: (label, [trees])."""
    rand = random.Random(seed)
    lessons = plan(rand, classes_of(classes))
    periods = {at: (f"p{at[1]}", [room_tree(rand, lesson) for lesson in held]) for at, held in lessons.items()}
    return "school", [(day, [periods[day, period] for period in PERIODS]) for day in DAYS]


def lines_of(tree, depth=0):
    """The lines of a tree's document. The label of a class or of a door's text can be no name; such labels are leaves."""
    label, children = tree
    blanks = "  " * depth
    if not children:
        yield f"{blanks}{label}" if label[0].isdigit() else f"{blanks}<{label}/>"
    elif len(children) == 1 and not children[0][1]:
        yield f"{blanks}<{label}>{children[0][0]}</{label}>"
    else:
        yield f"{blanks}<{label}>"
        for child in children:
            yield from lines_of(child, depth + 1)
        yield f"{blanks}</{label}>"


def document_of(tree):
    """The bytes of a week's file."""
    return ("\n".join(lines_of(tree)) + "\n").encode("ascii")


def tree_text(tree):
    """A tree as lines have it."""
    label, children = tree
    return f"({' '.join([label, *map(tree_text, children)])})"


def main():
    parser = argparse.ArgumentParser(description=__doc__, formatter_class=argparse.RawDescriptionHelpFormatter)
    parser.add_argument("--seed", type=int, default=SEED)
    parser.add_argument("--classes", type=int, default=CLASSES)
    options = parser.parse_args()
    if not 1 <= options.classes <= CLASSES_MAX:
        parser.error(f"1 to {CLASSES_MAX} classes")
    sys.stdout.buffer.write(document_of(week(options.seed, options.classes)))


if __name__ == "__main__":
    main()
