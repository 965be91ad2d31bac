/* The timetable tree and its readers: one call for every line, and one that loads the solver's file.
 *
 * The store is lent by the caller with each call: a state and a table. Both start as zeros. Keep them as they are
 * left, in memory or in a file; docs/FORMAT.md tells their bytes.
 *
 *     static uint8_t state[TIMETABLE_STATE_BYTES];
 *     static uint8_t table[TIMETABLE_TABLE_BYTES(1024)];
 *     static uint8_t area[TIMETABLE_AREA_BYTES(1024)];
 *
 *     int64_t returned = timetable_line(state, sizeof state, table, sizeof table, line, length, area, sizeof area);
 *     if (returned < 0) {
 *         fprintf(stderr, "refused %d: %s\n", (int)-returned, timetable_refusal_text(-returned));
 *     } else {
 *         fwrite(area, 1, (size_t)returned, stdout);
 *     }
 *
 * Link with liblouvretansy, static or shared (x86-64 Linux): `pkg-config --cflags --libs louvretansy`. The library
 * holds nothing between calls, allocates nothing, and needs of C's library memcpy and memset alone. Threads may call it
 * at the same time, each on bytes of its own. This header is for C99 and later, and for C++11 and later.
 */
#ifndef TIMETABLE_H
#define TIMETABLE_H

#include <stddef.h>
#include <stdint.h>

#ifdef __cplusplus
extern "C" {
#endif

/* The version of this header: as text, and as a number for #if (1,000,000 for the first part, 1,000 for the second).
 *
 * The library tells no version when it runs. A library that does not fit is found in three ways:
 * - The name that a program asks the system's loader for has the first two parts (liblouvretansy.so.0.6). They change
 *   whenever a call, a form, an answer or a byte of state or table is added or changes its meaning.
 * - timetable_library_fits() is 0 if the library's state is of another size.
 * - A state of TIMETABLE_STATE_BYTES that such a library is lent is refused with 13, whatever the line.
 */
#define TIMETABLE_VERSION "0.6.0"
#define TIMETABLE_VERSION_NUMBER 6000

/* The most bytes of a line, without its line feed. */
#define TIMETABLE_MAX_LINE_BYTES 1024

/* The most records that a table uses. A node takes one; in a document, each element and each text. */
#define TIMETABLE_MAX_RECORDS 16384

/* The bytes of a state. */
#define TIMETABLE_STATE_BYTES 68880

/* The bytes of a table of so many records. Those above TIMETABLE_MAX_RECORDS are never used, and stay zero. */
#define TIMETABLE_TABLE_BYTES(records) ((size_t)4 + (size_t)32 * (size_t)(records))

/* The bytes of the answer to `(sheet ROOM)`, whatever is on the sheet. */
#define TIMETABLE_SHEET_BYTES 657

/* An area that no answer outgrows, for a table of so many records: those of a sheet, and for each record what a node
 * takes in a view at most. A shorter one will do: a line whose answer does not fit is refused with 12. The argument is
 * evaluated twice.
 */
#define TIMETABLE_AREA_BYTES(records)                                                                                  \
    ((size_t)TIMETABLE_SHEET_BYTES +                                                                                   \
     (size_t)35 * ((size_t)(records) < (size_t)TIMETABLE_MAX_RECORDS ? (size_t)(records)                               \
                                                                     : (size_t)TIMETABLE_MAX_RECORDS))

/* The free stack that is enough for every call. The most measured is 1,056 KiB, for a path of 16 steps with 16 steps in
 * each of three nested brackets; without brackets it is 228 KiB. The figures are measured, not proved.
 */
#define TIMETABLE_STACK_BYTES 1310720

/* Why a line or a document is refused. 13 is tested first, then the others in the order of their numbers, except for
 * 14, which comes after 4, and 15, which comes after 10: the first that applies is given. Later versions may have more:
 * a program should be ready for a number that is not listed.
 */
enum timetable_refusal {
    TIMETABLE_REFUSED_BAD_LINE = 1,
    TIMETABLE_REFUSED_NO_FORM = 2,
    TIMETABLE_REFUSED_WRONG_STAGE = 3,
    TIMETABLE_REFUSED_BAD_PATH = 4,
    TIMETABLE_REFUSED_BAD_NAME = 5,
    TIMETABLE_REFUSED_RULE_BRACKET = 6,
    TIMETABLE_REFUSED_POLICY_FULL = 7,
    TIMETABLE_REFUSED_NO_USER = 8,
    TIMETABLE_REFUSED_BAD_LABEL = 9,
    TIMETABLE_REFUSED_TOO_DEEP = 10,
    TIMETABLE_REFUSED_TABLE_FULL = 11,
    TIMETABLE_REFUSED_AREA_SHORT = 12,
    TIMETABLE_REFUSED_BAD_STORE = 13,
    TIMETABLE_REFUSED_NO_DOCUMENT = 14,
    TIMETABLE_REFUSED_BAD_DAY = 15
};

/* Why it is refused, in words that follow "refused, since". The number is minus what the call returned. Any other
 * number has a text too: the result is never null.
 */
static inline const char *timetable_refusal_text(int64_t number) {
    switch (number) {
    case TIMETABLE_REFUSED_BAD_LINE:
        return "it has more than 1,024 bytes, or a byte that is no plain ASCII character";
    case TIMETABLE_REFUSED_NO_FORM:
        return "it is none of the forms: a wrong word, a bad label or tree, a space too many or too few";
    case TIMETABLE_REFUSED_WRONG_STAGE:
        return "it does not fit the stage: policy, root, children, work";
    case TIMETABLE_REFUSED_BAD_PATH:
        return "its path is not well formed";
    case TIMETABLE_REFUSED_BAD_NAME:
        return "a name is unknown or declared twice, an isa line is repeated, "
               "or a role is not declared before who has it";
    case TIMETABLE_REFUSED_RULE_BRACKET:
        return "a rule's path has a bracket";
    case TIMETABLE_REFUSED_POLICY_FULL:
        return "the policy is full: 64 subjects, 128 isa lines, 128 rules";
    case TIMETABLE_REFUSED_NO_USER:
        return "nobody has logged in yet";
    case TIMETABLE_REFUSED_BAD_LABEL:
        return "RESTRICTED is a new label or name in it, or stands in a tree or a rule's path; "
               "or a policy word is the new label of a rename or update";
    case TIMETABLE_REFUSED_TOO_DEEP:
        return "a node would come to a level above 11";
    case TIMETABLE_REFUSED_TABLE_FULL:
        return "the whole of it needs more free records than there are";
    case TIMETABLE_REFUSED_AREA_SHORT:
        return "the answer area is shorter than the answer";
    case TIMETABLE_REFUSED_BAD_STORE:
        return "the lent state or table is not valid, or the two do not agree";
    case TIMETABLE_REFUSED_NO_DOCUMENT:
        return "the document is not of the kind that is taken: one root element, tags that match, "
               "labels as names and texts, and nothing else";
    case TIMETABLE_REFUSED_BAD_DAY:
        return "a day is outside 1 to 366, or the first day is after the last";
    default:
        return "the library gives a number that this version of timetable.h does not know";
    }
}

/* The bytes of a state, as the library has them. */
size_t timetable_state_bytes(void);

/* Whether the library is one for this header, as far as the size of its state tells. */
static inline int timetable_library_fits(void) {
    return timetable_state_bytes() == TIMETABLE_STATE_BYTES;
}

/* One line, without its line feed.
 *
 * Returns the answer's length, 5 or more: its bytes, each line with a line feed, are at the front of the area, and the
 * area after them is as it was. Or returns minus the number of a refusal: every byte of state, table and area is as it
 * was.
 *
 * Whatever bytes the four areas hold, the call ends and stays within them. The caller sees to these things:
 * - Each pointer lends as many bytes as the length after it says, and is not null, even where the length is 0.
 * - The four areas do not overlap.
 * - Nobody else reads or writes state, table and area, or writes the line, during the call.
 * - The stack has TIMETABLE_STACK_BYTES free. A thread may have less by itself: see pthread_attr_setstacksize.
 */
int64_t timetable_line(uint8_t *state, size_t state_length, uint8_t *table, size_t table_length, const uint8_t *line,
                       size_t line_length, uint8_t *area, size_t area_length);

/* The solver's file, whole, in place of root and child lines: after the policy, where no root is there yet.
 *
 *     <school>
 *       <mon><lesson><class>10B</class><room>R12</room></lesson></mon>
 *       <tue/>
 *     </school>
 *
 * It is one XML 1.0 document of a narrow kind. Names and texts are labels; a name does not begin with a digit, a hyphen
 * or a full stop. Spaces, tabs and line ends may stand around the root and around a text, none inside a tag. A text
 * becomes a leaf: the lines of the document above are (root school), (child (mon (lesson (class (10B)) (room (R12)))))
 * and (child (tue)). Anything else is refused with 14: attributes, comments, declarations, a byte order mark.
 *
 * Returns what timetable_line returns for such lines: 5, with "(ok)" and a line feed at the front of the area; or minus
 * the number of a refusal: 13, 3, 14, 9, 10, 11 or 12. Then nothing is taken in. The caller sees to the same things as
 * for a line. A document may be of any length, and its time grows with its length alone, unless its elements are nested
 * deeper than 16,384 levels: then it is read once more for every further 16,384, before it is refused.
 */
int64_t timetable_load_xml(uint8_t *state, size_t state_length, uint8_t *table, size_t table_length, const uint8_t *xml,
                           size_t xml_length, uint8_t *area, size_t area_length);

#ifdef __cplusplus
}
#endif

#endif
