/* Tests of the library through its C interface: answers, areas that are too short (12), damaged states and tables (13),
 * documents, and the stack that calls take. Every lent area lies between guard bytes. Prints the number of calls and
 * the most stack, or the first failure. The places of bytes are those of docs/FORMAT.md.
 *
 *     library [refusals]
 *
 * With the word it prints the header's texts of the refusals alone, by number.
 */
#define _XOPEN_SOURCE 600
#include "timetable.h"

#include <stdio.h>
#include <stdlib.h>
#include <string.h>
#include <ucontext.h>

enum {
    GUARD_BYTES = 64,
    GUARD = 0x5a,
    OLD = 0xa5, /* what an area holds before a call */
    RECORD_BYTES = 32,
    STAGE = 0,
    USER = 1,
    SUBJECT_COUNT = 8,
    ISA_COUNT = 9,
    RULE_COUNT = 10,
    SUBJECTS = 16,
    ISA_LINES = 2064,
    RULES = 2320,
    RULE_BYTES = 520,
    STEPS = 8,
    DAY = 2,    /* of a session, less one: 2 bytes */
    FIRST = 26, /* of a node: its first day, 2 bytes */
    LAST = 28,  /* and its last */
    SPARE = 30, /* 2 zero bytes */
    RECORDS = 4,
    SCHOOL_NODES = 9
};

enum stage { A, B, C, D, E };

#define CHECK(what, fact)                                                                                              \
    do {                                                                                                               \
        if (!(fact)) {                                                                                                 \
            fprintf(stderr, "FAILED: %s (%s:%d): %s\n", what, __FILE__, __LINE__, #fact);                              \
            exit(1);                                                                                                   \
        }                                                                                                              \
    } while (0)

static unsigned long calls = 0;

/* Lent bytes between guards */

struct lent {
    uint8_t *bytes;
    size_t length;
};

static struct lent lend(size_t length, uint8_t filled) {
    uint8_t *block = malloc(length + 2 * GUARD_BYTES);
    CHECK("memory", block != NULL);
    memset(block, GUARD, length + 2 * GUARD_BYTES);
    memset(block + GUARD_BYTES, filled, length);
    struct lent made = {block + GUARD_BYTES, length};
    return made;
}

static struct lent lend_copy(const void *bytes, size_t length) {
    struct lent made = lend(length, 0);
    memcpy(made.bytes, bytes, length);
    return made;
}

static int guarded(struct lent lent) {
    for (size_t i = 0; i < GUARD_BYTES; i++) {
        if (lent.bytes[lent.length + i] != GUARD || *(lent.bytes - 1 - i) != GUARD) {
            return 0;
        }
    }
    return 1;
}

static int same(struct lent one, struct lent other) {
    return one.length == other.length && memcmp(one.bytes, other.bytes, one.length) == 0;
}

static void give_back(struct lent lent) {
    free(lent.bytes - GUARD_BYTES);
}

struct store {
    struct lent state;
    struct lent table;
};

static struct store new_store(size_t table_bytes) {
    struct store made = {lend(TIMETABLE_STATE_BYTES, 0), lend(table_bytes, 0)};
    return made;
}

static struct store copy_store(struct store store) {
    struct store made = {lend_copy(store.state.bytes, store.state.length),
                         lend_copy(store.table.bytes, store.table.length)};
    return made;
}

static void give_back_store(struct store store) {
    give_back(store.state);
    give_back(store.table);
}

/* Calls */

enum { REFUSALS = 15 };

/* timetable_line or timetable_load_xml */
typedef int64_t function(uint8_t *state, size_t state_length, uint8_t *table, size_t table_length, const uint8_t *text,
                         size_t text_length, uint8_t *area, size_t area_length);

/* One call, with what holds for every one: guards and text are kept, the answer lies in the area and what is behind it
 * is kept, a refusal keeps every byte.
 */
static int64_t call(function *called, struct store store, const char *text, struct lent area) {
    struct store before = copy_store(store);
    struct lent old = lend_copy(area.bytes, area.length);
    struct lent given = lend_copy(text, strlen(text));
    int64_t returned = called(store.state.bytes, store.state.length, store.table.bytes, store.table.length, given.bytes,
                              given.length, area.bytes, area.length);
    calls++;
    CHECK(text, guarded(store.state) && guarded(store.table) && guarded(given) && guarded(area));
    CHECK(text, memcmp(given.bytes, text, given.length) == 0);
    if (returned < 0) {
        CHECK(text, returned >= -REFUSALS);
        CHECK(text, same(store.state, before.state) && same(store.table, before.table) && same(area, old));
    } else {
        size_t length = (size_t)returned;
        CHECK(text, length >= 5 && length <= area.length && area.bytes[length - 1] == '\n');
        CHECK(text, memcmp(area.bytes + length, old.bytes + length, area.length - length) == 0);
    }
    give_back_store(before);
    give_back(old);
    give_back(given);
    return returned;
}

static void expect_refused(function *called, struct store store, const char *text, size_t room, int number,
                           const char *what) {
    struct lent area = lend(room, OLD);
    int64_t returned = call(called, store, text, area);
    if (returned != -number) {
        fprintf(stderr, "FAILED: %s: %.60s returns %ld, not %d\n", what, text, (long)returned, -number);
        exit(1);
    }
    give_back(area);
}

static void expect_refusal(struct store store, const char *line, size_t room, int number, const char *what) {
    expect_refused(timetable_line, store, line, room, number, what);
}

static void expect_answered(function *called, struct store store, const char *text, size_t room, const char *answer) {
    struct lent area = lend(room, OLD);
    int64_t returned = call(called, store, text, area);
    if (returned != (int64_t)strlen(answer) || memcmp(area.bytes, answer, strlen(answer)) != 0) {
        fprintf(stderr, "FAILED: %.60s returns %ld: %.*s", text, (long)returned, returned > 0 ? (int)returned : 0,
                (const char *)area.bytes);
        exit(1);
    }
    give_back(area);
}

static void expect_answer(struct store store, const char *line, size_t room, const char *answer) {
    expect_answered(timetable_line, store, line, room, answer);
}

/* The small school of document 01 */

struct example {
    const char *line;
    const char *answer;
};

static const struct example EXAMPLE[] = {
    {"(subject staff)", "(ok)\n"},
    {"(subject SHA)", "(ok)\n"},
    {"(isa SHA staff)", "(ok)\n"},
    {"(rule accept read //* staff)", "(ok)\n"},
    {"(rule deny read //note/* staff)", "(ok)\n"},
    {"(rule accept position //note/* staff)", "(ok)\n"},
    {"(rule accept update //room/* staff)", "(ok)\n"},
    {"(root school)", "(ok)\n"},
    {"(child (mon (lesson (class (10B)) (room (R12)) (note (ill)))))", "(ok)\n"},
    {"(user SHA)", "(ok)\n"},
    {"(view)", "(root school)\n(child (mon (lesson (class (10B)) (room (R12)) (note (RESTRICTED)))))\n(end 9)\n"},
    {"(update //room R14)", "(done 1 1)\n"},
    {"(query //lesson/*)", "(hit 3 class)\n(hit 3 room)\n(hit 3 note)\n(end 3)\n"},
    {"(rename //note/* cold)", "(done 1 0)\n"},
    {"(find //room/R14)", "(hit 4 R14)\n"},
    {"(find //R12)", "(none)\n"},
    {"(find //ROOM/r14)", "(hit 4 R14)\n"},
    {"(user sha)", "(ok)\n"},
    {"(window //room/* 5 366)", "(done 1 1)\n"},
    {"(find //room/R14)", "(none)\n"},
    {"(day 5)", "(ok)\n"},
    {"(window //mon 1 4)", "(done 1 0)\n"},
    {"(sheet room)", "  mon          |             |             |             |             |\n"
                     "1 R14          |             |             |             |             |\n"
                     "2              |             |             |             |             |\n"
                     "3              |             |             |             |             |\n"
                     "4              |             |             |             |             |\n"
                     "5              |             |             |             |             |\n"
                     "6              |             |             |             |             |\n"
                     "7              |             |             |             |             |\n"
                     "8              |             |             |             |             |\n"},
};

enum { POLICY_LINES = 7, TREE_LINES = 9, LOGGED_IN = 10, EXAMPLE_LINES = sizeof EXAMPLE / sizeof EXAMPLE[0] };

static struct store school(size_t lines, size_t table_bytes) {
    struct store made = new_store(table_bytes);
    for (size_t i = 0; i < lines; i++) {
        expect_answer(made, EXAMPLE[i].line, 100, EXAMPLE[i].answer);
    }
    return made;
}

static struct store full_school(void) {
    return school(LOGGED_IN, TIMETABLE_TABLE_BYTES(20) + 5);
}

static void write_label(uint8_t *record, const char *label) {
    memset(record + 1, 0, FIRST - 1);
    record[1] = (uint8_t)strlen(label);
    memcpy(record + 2, label, strlen(label));
}

static void write_window(uint8_t *record, unsigned first, unsigned last) {
    record[FIRST] = first & 255;
    record[FIRST + 1] = (uint8_t)(first >> 8);
    record[LAST] = last & 255;
    record[LAST + 1] = (uint8_t)(last >> 8);
}

/* 12: every area shorter than the answer, byte for byte; then the very length */
static void short_areas(void) {
    struct store store = new_store(TIMETABLE_TABLE_BYTES(20));
    for (size_t i = 0; i < EXAMPLE_LINES; i++) {
        size_t length = strlen(EXAMPLE[i].answer);
        for (size_t room = 0; room < length; room++) {
            expect_refusal(store, EXAMPLE[i].line, room, TIMETABLE_REFUSED_AREA_SHORT, "a short area");
        }
        expect_answer(store, EXAMPLE[i].line, length, EXAMPLE[i].answer);
    }
    /* a smaller number comes first */
    expect_refusal(store, "(query a)", 0, TIMETABLE_REFUSED_BAD_PATH, "a short area");
    give_back_store(store);
}

/* 13, whatever the line or the document and the area are; 13 comes first */
static void expect_damaged(struct store store, const char *what) {
    char long_line[TIMETABLE_MAX_LINE_BYTES + 2];
    memset(long_line, 'x', sizeof long_line - 1);
    long_line[sizeof long_line - 1] = '\0';
    const char *const lines[] = {"(view)", "(subject x)", "(root r)", "(user SHA)", "", "\n", long_line};
    for (size_t i = 0; i < sizeof lines / sizeof lines[0]; i++) {
        expect_refusal(store, lines[i], i % 2 == 0 ? 100 : 0, TIMETABLE_REFUSED_BAD_STORE, what);
    }
    expect_refused(timetable_load_xml, store, "<school/>", 100, TIMETABLE_REFUSED_BAD_STORE, what);
    expect_refused(timetable_load_xml, store, "<school>", 0, TIMETABLE_REFUSED_BAD_STORE, what);
}

static void damaged_byte(struct store sound, int in_table, size_t at, uint8_t value, const char *what) {
    struct store store = copy_store(sound);
    struct lent lent = in_table ? store.table : store.state;
    CHECK(what, at < lent.length && lent.bytes[at] != value);
    lent.bytes[at] = value;
    expect_damaged(store, what);
    give_back_store(store);
}

static void damaged_state(struct store sound, size_t at, uint8_t value, const char *what) {
    damaged_byte(sound, 0, at, value, what);
}

static void damaged_table(struct store sound, size_t at, uint8_t value, const char *what) {
    damaged_byte(sound, 1, at, value, what);
}

static void state_lengths(void) {
    const size_t lengths[] = {0, 1, 8, TIMETABLE_STATE_BYTES - 1, TIMETABLE_STATE_BYTES + 1, 2 * TIMETABLE_STATE_BYTES};
    for (size_t i = 0; i < sizeof lengths / sizeof lengths[0]; i++) {
        struct store store = {lend(lengths[i], 0), lend(TIMETABLE_TABLE_BYTES(20), 0)};
        expect_damaged(store, "a state of another length");
        give_back_store(store);
    }
}

static void damaged_sessions(void) {
    struct store policy = school(POLICY_LINES, TIMETABLE_TABLE_BYTES(20));
    struct store tree = school(TREE_LINES, TIMETABLE_TABLE_BYTES(20));
    struct store user = full_school();
    damaged_state(policy, USER, 2, "a user at stage B");
    damaged_state(policy, STAGE, A, "a rule at stage A");
    damaged_state(policy, STAGE, C, "the root line without a root");
    damaged_state(policy, STAGE, D, "a child line without a root");
    damaged_state(policy, STAGE, E, "stage E without user and root");
    damaged_state(tree, STAGE, A, "a root without the root line, at stage A");
    damaged_state(tree, STAGE, B, "a root without the root line");
    damaged_state(tree, USER, 1, "a user at stage D");
    damaged_state(user, STAGE, D, "a user at stage D");
    damaged_state(user, STAGE, 5, "a stage past E");
    damaged_state(user, USER, 3, "a user who is not declared");
    damaged_state(user, DAY + 1, 2, "a day after the 366th");
    damaged_state(user, DAY + 1, 255, "a day after the 366th");
    for (size_t at = DAY + 2; at < 8; at++) {
        damaged_state(user, at, 1, "a spare byte of the session");
    }
    user.state.bytes[DAY + 1] = 366 >> 8;
    damaged_state(user, DAY, 366 & 255, "a 367th day");
    damaged_state(policy, DAY + 1, 2, "a day after the 366th at stage B");
    give_back_store(policy);
    give_back_store(tree);
    give_back_store(user);
}

static void damaged_policies(void) {
    struct store sound = full_school();
    size_t last_step = RULES + 1 * RULE_BYTES + STEPS + RECORD_BYTES; /* rule 1 has two */
    damaged_state(sound, SUBJECT_COUNT, 65, "65 subjects");
    damaged_state(sound, SUBJECT_COUNT, 3, "a subject without a name");
    damaged_state(sound, SUBJECT_COUNT, 1, "a name behind the subjects");
    damaged_state(sound, ISA_COUNT, 129, "129 isa lines");
    damaged_state(sound, ISA_COUNT, 2, "an isa line of a subject and itself");
    damaged_state(sound, ISA_COUNT, 0, "an isa line behind the isa lines");
    damaged_state(sound, RULE_COUNT, 129, "129 rules");
    damaged_state(sound, RULE_COUNT, 5, "a rule without steps");
    damaged_state(sound, RULE_COUNT, 3, "a rule behind the rules");
    for (size_t at = RULE_COUNT + 1; at < SUBJECTS; at++) {
        damaged_state(sound, at, 1, "a spare byte of the policy");
    }
    damaged_state(sound, SUBJECTS, 1, "a subject at level 1");
    damaged_state(sound, SUBJECTS + 1, 0, "a name of no bytes");
    damaged_state(sound, SUBJECTS + 1, 25, "a name of 25 bytes");
    damaged_state(sound, SUBJECTS + 1, 4, "a byte behind a name");
    damaged_state(sound, SUBJECTS + 1, 6, "a zero byte in a name");
    damaged_state(sound, SUBJECTS + 2, '*', "a name that is no label");
    for (size_t at = SUBJECTS + FIRST; at < SUBJECTS + RECORD_BYTES; at++) {
        damaged_state(sound, at, 1, "a spare byte of a subject");
    }
    for (size_t at = last_step + FIRST; at < last_step + RECORD_BYTES; at++) {
        damaged_state(sound, at, 1, "a spare byte of a step");
    }
    damaged_state(sound, ISA_LINES, 0, "an isa line of a subject and itself");
    damaged_state(sound, ISA_LINES, 2, "an isa line of an unknown name");
    damaged_state(sound, ISA_LINES + 1, 1, "an isa line whose R is not before N");
    damaged_state(sound, RULES, 2, "a rule that neither accepts nor denies");
    damaged_state(sound, RULES + 1, 0, "a rule without a right");
    damaged_state(sound, RULES + 1, 3, "a rule with two rights");
    damaged_state(sound, RULES + 1, 32, "a rule with a sixth right");
    damaged_state(sound, RULES + 2, 2, "a rule of an unknown name");
    damaged_state(sound, RULES + 3, 0, "a rule of no steps");
    damaged_state(sound, RULES + 3, 2, "a step without a label");
    damaged_state(sound, RULES + 3, 17, "a rule of 17 steps");
    for (size_t at = RULES + 4; at < RULES + STEPS; at++) {
        damaged_state(sound, at, 1, "a spare byte of a rule");
    }
    damaged_state(sound, RULES + STEPS, 2, "a step that is neither / nor //");
    damaged_state(sound, RULES + STEPS + 2, '[', "a bracket in a rule");
    damaged_state(sound, last_step + RECORD_BYTES, 1, "a byte behind a rule's steps");
    damaged_state(sound, TIMETABLE_STATE_BYTES - 1, 1, "the last byte");
    for (size_t at = RULES + 4 * RULE_BYTES; at < TIMETABLE_STATE_BYTES; at += 997) {
        damaged_state(sound, at, 1, "a byte that is not in use");
    }

    struct store store = copy_store(sound);
    write_label(store.state.bytes + SUBJECTS + RECORD_BYTES, "staff");
    expect_damaged(store, "a name declared twice");
    write_label(store.state.bytes + SUBJECTS + RECORD_BYTES, "Staff");
    expect_damaged(store, "a name declared twice in another case");
    write_label(store.state.bytes + SUBJECTS + RECORD_BYTES, "RESTRICTED");
    expect_damaged(store, "RESTRICTED as a name");
    write_label(store.state.bytes + SUBJECTS + RECORD_BYTES, "restricted");
    expect_damaged(store, "RESTRICTED as a name in another case");
    give_back_store(store);

    store = copy_store(sound);
    write_label(store.state.bytes + RULES + RULE_BYTES + STEPS, "RESTRICTED");
    expect_damaged(store, "RESTRICTED in a rule");
    write_label(store.state.bytes + RULES + RULE_BYTES + STEPS, "Restricted");
    expect_damaged(store, "RESTRICTED in a rule in another case");
    give_back_store(store);

    store = copy_store(sound);
    store.state.bytes[ISA_COUNT] = 2;
    store.state.bytes[ISA_LINES + 2] = 1;
    expect_damaged(store, "an isa line repeated");
    give_back_store(store);
    give_back_store(sound);
}

static void damaged_tables(void) {
    struct store sound = full_school();
    size_t mon = RECORDS + RECORD_BYTES;
    size_t behind = RECORDS + SCHOOL_NODES * RECORD_BYTES;
    damaged_table(sound, 0, SCHOOL_NODES - 1, "a record behind the last");
    damaged_table(sound, 0, SCHOOL_NODES + 1, "a record without a label");
    damaged_table(sound, 0, 21, "a count above the capacity");
    damaged_table(sound, 3, 255, "a count above the capacity");
    damaged_table(sound, RECORDS, 1, "a root at level 1");
    damaged_table(sound, mon, 0, "two roots");
    damaged_table(sound, mon, 2, "a level left out");
    damaged_table(sound, mon + 1, 0, "a label of no bytes");
    damaged_table(sound, mon + 1, 25, "a label of 25 bytes");
    damaged_table(sound, mon + 1, 2, "a byte behind a label");
    damaged_table(sound, mon + 1, 4, "a zero byte in a label");
    damaged_table(sound, mon + 2, ' ', "a space in a label");
    damaged_table(sound, mon + 2, 200, "a byte of a label that is not ASCII");
    for (size_t at = mon + SPARE; at < mon + RECORD_BYTES; at++) {
        damaged_table(sound, at, 1, "a spare byte of a record");
    }
    for (size_t at = behind; at < sound.table.length; at++) {
        damaged_table(sound, at, 1, "a tail that is not zero");
    }

    static const unsigned windows[][2] = {{0, 0},     {0, 366}, {1, 0},     {2, 1},
                                          {256, 255}, {1, 367}, {367, 367}, {1, 65535}};
    for (size_t i = 0; i < sizeof windows / sizeof windows[0]; i++) {
        struct store dated = copy_store(sound);
        write_window(dated.table.bytes + mon, windows[i][0], windows[i][1]);
        expect_damaged(dated, "a window with a bad day, or whose first day is after its last");
        write_window(dated.table.bytes + mon, 1, 366);
        write_window(dated.table.bytes + RECORDS, windows[i][0], windows[i][1]);
        expect_damaged(dated, "the same for the root");
        give_back_store(dated);
    }
    struct store root = copy_store(sound);
    write_window(root.table.bytes + RECORDS, 2, 366);
    expect_damaged(root, "a root that is not shown on day 1");
    write_window(root.table.bytes + RECORDS, 1, 365);
    expect_damaged(root, "a root that is not shown on day 366");
    give_back_store(root);

    struct store store = copy_store(sound);
    write_label(store.table.bytes + mon, "RESTRICTED");
    expect_damaged(store, "RESTRICTED as a label");
    write_label(store.table.bytes + mon, "restrictED");
    expect_damaged(store, "RESTRICTED as a label in another case");
    give_back_store(store);

    store = school(LOGGED_IN, TIMETABLE_TABLE_BYTES(SCHOOL_NODES));
    expect_refusal(store, "(child (x))", 100, TIMETABLE_REFUSED_WRONG_STAGE, "a full table");
    store.table.bytes[0] = SCHOOL_NODES + 1;
    expect_damaged(store, "a count one above the capacity");
    give_back_store(store);

    store = new_store(TIMETABLE_TABLE_BYTES(13));
    store.state.bytes[STAGE] = C;
    store.table.bytes[0] = 13;
    for (uint8_t level = 0; level < 13; level++) {
        uint8_t *record = store.table.bytes + RECORDS + level * RECORD_BYTES;
        record[0] = level;
        write_label(record, "x");
        write_window(record, 1, 366);
    }
    expect_damaged(store, "a level above 11");
    give_back_store(store);

    for (size_t length = 0; length < 4; length++) {
        store = new_store(length);
        expect_damaged(store, "a table under 4 bytes");
        give_back_store(store);
    }
    give_back_store(sound);
}

/* What 13 lets pass at the edges */
static void sound_stores(void) {
    struct store store = new_store(4);
    expect_answer(store, "(subject x)", 5, "(ok)\n");
    expect_refusal(store, "(root r)", 5, TIMETABLE_REFUSED_TABLE_FULL, "a table of 4 bytes");
    give_back_store(store);

    store = new_store(TIMETABLE_TABLE_BYTES(1));
    store.state.bytes[STAGE] = B; /* no rule is needed for it */
    expect_refusal(store, "(subject x)", 5, TIMETABLE_REFUSED_WRONG_STAGE, "stage B");
    expect_answer(store, "(root r)", 5, "(ok)\n");
    give_back_store(store);

    store = school(TREE_LINES, TIMETABLE_TABLE_BYTES(20));
    store.state.bytes[STAGE] = E; /* as a day line leaves it */
    expect_refusal(store, "(view)", 100, TIMETABLE_REFUSED_NO_USER, "stage E without a user");
    store.state.bytes[STAGE] = D;
    store.state.bytes[DAY] = 365 & 255; /* a day before any day line */
    store.state.bytes[DAY + 1] = 365 >> 8;
    write_window(store.table.bytes + RECORDS + RECORD_BYTES, 366, 366);
    write_window(store.table.bytes + RECORDS + 2 * RECORD_BYTES, 1, 365);
    expect_answer(store, "(user SHA)", 5, "(ok)\n");
    expect_answer(store, "(view)", 100, "(root school)\n(child (mon))\n(end 2)\n");
    give_back_store(store);
}

static void longest_lines(void) {
    struct store store = new_store(TIMETABLE_TABLE_BYTES(20));
    char line[TIMETABLE_MAX_LINE_BYTES + 2];
    memset(line, 'x', sizeof line);
    line[TIMETABLE_MAX_LINE_BYTES + 1] = '\0';
    expect_refusal(store, line, 100, TIMETABLE_REFUSED_BAD_LINE, "1,025 bytes");
    line[TIMETABLE_MAX_LINE_BYTES] = '\0';
    expect_refusal(store, line, 100, TIMETABLE_REFUSED_NO_FORM, "1,024 bytes");
    expect_refusal(store, "", 100, TIMETABLE_REFUSED_NO_FORM, "no bytes");
    expect_refusal(store, "(subject x)\n", 100, TIMETABLE_REFUSED_BAD_LINE, "a line feed");
    expect_refusal(store, "(subject \x7f)", 100, TIMETABLE_REFUSED_BAD_LINE, "byte 127");
    give_back_store(store);
}

/* Paths of 16 steps, the last one with another such path in brackets, and so on */
static void write_path(char *path, int nesting) {
    strcpy(path, "/");
    for (int depth = 0; depth <= nesting; depth++) {
        strcat(path, depth == 0 ? "/*" : "[*");
        for (int step = 1; step < 16; step++) {
            strcat(path, "//*");
        }
    }
    for (int depth = 0; depth < nesting; depth++) {
        strcat(path, "]");
    }
}

static void write_line(char *line, const char *word, const char *path, const char *rest) {
    sprintf(line, "(%s %s%s)", word, path, rest);
}

/* A table of all 16,384 records with the longest labels: the longest view. */
static void largest_table(void) {
    static const char label[] = "abcdefghijklmnopqrstuvwx";
    struct store store = new_store(TIMETABLE_TABLE_BYTES(TIMETABLE_MAX_RECORDS + 1) + 31);
    struct lent area = lend(TIMETABLE_AREA_BYTES(TIMETABLE_MAX_RECORDS + 1), OLD);
    expect_answer(store, "(subject x)", 5, "(ok)\n");
    expect_answer(store, "(rule accept read //* x)", 5, "(ok)\n");
    expect_answer(store, "(rule accept update //* x)", 5, "(ok)\n");
    expect_answer(store, "(rule accept insert //* x)", 5, "(ok)\n");
    expect_answer(store, "(root abcdefghijklmnopqrstuvwx)", 5, "(ok)\n");
    store.table.bytes[0] = TIMETABLE_MAX_RECORDS & 255;
    store.table.bytes[1] = TIMETABLE_MAX_RECORDS >> 8;
    for (size_t i = 1; i < TIMETABLE_MAX_RECORDS; i++) {
        uint8_t *record = store.table.bytes + RECORDS + i * RECORD_BYTES;
        record[0] = 1;
        write_label(record, label);
        write_window(record, 1, 366);
    }
    expect_refusal(store, "(child (x))", 5, TIMETABLE_REFUSED_TABLE_FULL, "16,384 records");
    expect_answer(store, "(user x)", 5, "(ok)\n");

    size_t root = strlen("(root )\n") + 24;
    size_t child = strlen("(child ())\n") + 24;
    size_t length = root + (TIMETABLE_MAX_RECORDS - 1) * child + strlen("(end 16384)\n");
    CHECK("the longest view", call(timetable_line, store, "(view)", area) == (int64_t)length && length <= area.length);
    expect_refusal(store, "(view)", length - 1, TIMETABLE_REFUSED_AREA_SHORT, "the longest view");
    CHECK("the longest query", call(timetable_line, store, "(query //*)", area) > 0);

    char path[256];
    char nested[TIMETABLE_MAX_LINE_BYTES];
    write_path(path, 3);
    write_line(nested, "update", path, " y");
    expect_answer(store, nested, 100, "(done 0 0)\n");
    expect_answer(store, "(update /*[*[1]][*[1]] y)", 100, "(done 1 16383)\n");
    expect_refusal(store, "(append //*[1] (a (b (c))))", 100, TIMETABLE_REFUSED_TABLE_FULL, "16,384 records");
    expect_answer(store, "(update /* z)", 100, "(done 1 16383)\n");
    give_back(area);
    give_back_store(store);
}

/* Documents */

/* So many elements in each other. All are closed or none is; the one in the middle may be closed by another name. */
static char *nested(size_t levels, int closed, int mismatched) {
    char *made = malloc(levels * 7 + 1);
    CHECK("memory", made != NULL);
    char *end = made;
    for (size_t i = 0; i < levels; i++, end += 3) {
        memcpy(end, "<a>", 3);
    }
    for (size_t i = 0; i < levels && closed; i++, end += 4) {
        memcpy(end, mismatched && i == levels / 2 ? "</b>" : "</a>", 4);
    }
    *end = '\0';
    return made;
}

/* The school of document 01 by its document is that by its lines. Each refusal comes before those after it. */
static void documents(void) {
    static const char *const document =
        "\r\n<school>\n\t<mon><lesson> <class>10B</class><room>\nR12 </room><note>ill</note></lesson></mon>\n"
        "</school>\n";
    struct store typed = school(TREE_LINES, TIMETABLE_TABLE_BYTES(SCHOOL_NODES));
    struct store loaded = school(POLICY_LINES, TIMETABLE_TABLE_BYTES(SCHOOL_NODES));
    for (size_t room = 0; room < 5; room++) {
        expect_refused(timetable_load_xml, loaded, document, room, TIMETABLE_REFUSED_AREA_SHORT, "a short area");
    }
    expect_answered(timetable_load_xml, loaded, document, 5, "(ok)\n");
    CHECK("a document and its lines", same(loaded.state, typed.state) && same(loaded.table, typed.table));
    expect_refused(timetable_load_xml, loaded, "", 0, TIMETABLE_REFUSED_WRONG_STAGE, "a root that is there");
    give_back_store(typed);
    give_back_store(loaded);

    struct store empty = new_store(TIMETABLE_TABLE_BYTES(2));
    static const struct {
        const char *document;
        int number;
    } refused[] = {
        {"<a><RESTRICTED></a>", TIMETABLE_REFUSED_NO_DOCUMENT},
        {"<a></A>", TIMETABLE_REFUSED_NO_DOCUMENT},
        {"<a>restricted</a>", TIMETABLE_REFUSED_BAD_LABEL},
        {"<a><b><c/>RESTRICTED</b></a><d/>", TIMETABLE_REFUSED_NO_DOCUMENT},
        {"<a><b><c><d><e><f><g><h><i><j><k><l><m/>RESTRICTED</l></k></j></i></h></g></f></e></d></c></b></a>",
         TIMETABLE_REFUSED_BAD_LABEL},
        {"<a><b><c><d><e><f><g><h><i><j><k><l><m/></l></k></j></i></h></g></f></e></d></c></b></a>",
         TIMETABLE_REFUSED_TOO_DEEP},
        {"<a>b<c/></a>", TIMETABLE_REFUSED_TABLE_FULL},
        {"<a>b</a>", TIMETABLE_REFUSED_AREA_SHORT},
    };
    for (size_t i = 0; i < sizeof refused / sizeof refused[0]; i++) {
        expect_refused(timetable_load_xml, empty, refused[i].document, 4, refused[i].number, "a document");
    }
    expect_answered(timetable_load_xml, empty, "<a>b</a>", 5, "(ok)\n");
    give_back_store(empty);
}

/* The stack. A call runs on one that was painted before; the lowest byte without paint tells how much it took. */

enum { PAINT = 0xc5 };

static uint8_t stack[4 * 1024 * 1024];

static struct {
    ucontext_t caller;
    function *called;
    struct store store;
    const char *text;
    struct lent area;
    int64_t returned;
} painted;

static void call_on_paint(void) {
    struct store store = painted.store;
    painted.returned =
        painted.called(store.state.bytes, store.state.length, store.table.bytes, store.table.length,
                       (const uint8_t *)painted.text, strlen(painted.text), painted.area.bytes, painted.area.length);
}

/* The bytes of stack that a call takes, and what it returned in `painted` */
static size_t stack_of_call(function *called, struct store store, const char *text) {
    ucontext_t callee;
    painted.called = called;
    painted.store = copy_store(store);
    painted.text = text;
    painted.area = lend(TIMETABLE_AREA_BYTES(20), OLD);
    memset(stack, PAINT, sizeof stack);
    CHECK(text, getcontext(&callee) == 0);
    callee.uc_stack.ss_sp = stack;
    callee.uc_stack.ss_size = sizeof stack;
    callee.uc_link = &painted.caller;
    makecontext(&callee, call_on_paint, 0);
    CHECK(text, swapcontext(&painted.caller, &callee) == 0);
    calls++;
    give_back_store(painted.store);
    give_back(painted.area);
    size_t kept = 0;
    while (stack[kept] == PAINT) {
        kept++;
    }
    CHECK(text, kept > 0);
    return sizeof stack - kept;
}

/* The same of an accepted line */
static size_t stack_of(struct store store, const char *line) {
    size_t used = stack_of_call(timetable_line, store, line);
    CHECK(line, painted.returned > 0);
    return used;
}

/* The most that documents of 100,000 nested elements take */
static size_t stack_of_documents(void) {
    static const struct {
        int closed, mismatched, number;
    } documents[] = {{1, 0, TIMETABLE_REFUSED_TOO_DEEP},
                     {1, 1, TIMETABLE_REFUSED_NO_DOCUMENT},
                     {0, 0, TIMETABLE_REFUSED_NO_DOCUMENT}};
    struct store empty = new_store(TIMETABLE_TABLE_BYTES(20));
    size_t most = 0;
    for (size_t i = 0; i < sizeof documents / sizeof documents[0]; i++) {
        char *deep = nested(100000, documents[i].closed, documents[i].mismatched);
        size_t used = stack_of_call(timetable_load_xml, empty, deep);
        CHECK("100,000 nested elements", painted.returned == -documents[i].number);
        most = used > most ? used : most;
        free(deep);
    }
    give_back_store(empty);
    return most;
}

/* The most that any form takes, with paths of 16 steps in brackets nested so deep */
static size_t most_stack(struct store store, int nesting) {
    static const struct {
        const char *word;
        const char *rest;
    } forms[] = {{"query", ""},      {"find", ""},        {"rename", " y"}, {"update", " y"},      {"append", " (y)"},
                 {"before", " (y)"}, {"after", " (y)"},   {"remove", ""},   {"window", " 1 366"}};
    char path[256];
    char line[TIMETABLE_MAX_LINE_BYTES];
    size_t view = stack_of(store, "(view)"), sheet = stack_of(store, "(sheet room)");
    size_t most = view > sheet ? view : sheet;
    write_path(path, nesting);
    for (size_t i = 0; i < sizeof forms / sizeof forms[0]; i++) {
        write_line(line, forms[i].word, path, forms[i].rest);
        size_t used = stack_of(store, line);
        most = used > most ? used : most;
    }
    return most;
}

/* The header asks for an eighth more than the most, and for less than twice as much. */
static void stack_of_calls(void) {
    struct store store = full_school();
    size_t without = most_stack(store, 0);
    size_t most = most_stack(store, 3);
    CHECK("the stack that the header asks for", most > without);
    CHECK("the stack of a document is within that of a line", stack_of_documents() <= without);
    CHECK("the stack that the header asks for", most + most / 8 <= TIMETABLE_STACK_BYTES);
    CHECK("the stack that the header asks for", TIMETABLE_STACK_BYTES < 2 * most);
    printf("stack: %lu KiB, without brackets %lu KiB\n", (unsigned long)(most + 1023) / 1024,
           (unsigned long)(without + 1023) / 1024);
    give_back_store(store);
}

/* The header */

static void texts_of_refusals(void) {
    const char *unknown = timetable_refusal_text(0);
    const int64_t others[] = {-REFUSALS, -1, REFUSALS + 1, INT64_MIN, INT64_MAX};
    for (size_t i = 0; i < sizeof others / sizeof others[0]; i++) {
        CHECK("an unknown refusal", strcmp(timetable_refusal_text(others[i]), unknown) == 0);
    }
    for (int64_t number = 1; number <= REFUSALS; number++) {
        CHECK("a refusal", strcmp(timetable_refusal_text(number), unknown) != 0);
    }
}

static void print_refusals(void) {
    for (int number = 1; number <= REFUSALS; number++) {
        printf("%d %s\n", number, timetable_refusal_text(number));
    }
}

static void sizes(void) {
    int major, minor, patch;
    char rest;
    CHECK("the bytes of a state", timetable_state_bytes() == TIMETABLE_STATE_BYTES && timetable_library_fits());
    CHECK("an area", TIMETABLE_AREA_BYTES(0) == TIMETABLE_SHEET_BYTES);
    CHECK("an area", TIMETABLE_AREA_BYTES(TIMETABLE_MAX_RECORDS - 1) < TIMETABLE_AREA_BYTES(TIMETABLE_MAX_RECORDS));
    CHECK("an area", TIMETABLE_AREA_BYTES(TIMETABLE_MAX_RECORDS + 1) == TIMETABLE_AREA_BYTES(TIMETABLE_MAX_RECORDS));
    CHECK("an area", TIMETABLE_AREA_BYTES(-1) == TIMETABLE_AREA_BYTES(TIMETABLE_MAX_RECORDS));
    CHECK("the version", sscanf(TIMETABLE_VERSION, "%d.%d.%d%c", &major, &minor, &patch, &rest) == 3);
    CHECK("the version", TIMETABLE_VERSION_NUMBER == major * 1000000 + minor * 1000 + patch);
}

int main(int argc, char **argv) {
    if (argc == 2 && strcmp(argv[1], "refusals") == 0) {
        print_refusals();
        return 0;
    }
    sizes();
    texts_of_refusals();
    short_areas();
    state_lengths();
    damaged_sessions();
    damaged_policies();
    damaged_tables();
    sound_stores();
    longest_lines();
    largest_table();
    documents();
    stack_of_calls();
    printf("%lu calls as expected\n", calls);
    return 0;
}
