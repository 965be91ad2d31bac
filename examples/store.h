/* What the examples share: a store in fixed memory, and what they do with what a call returns. */
#ifndef EXAMPLES_STORE_H
#define EXAMPLES_STORE_H

#include "timetable.h"

#include <stdio.h>
#include <stdlib.h>
#include <string.h>

static uint8_t state[TIMETABLE_STATE_BYTES];
static uint8_t table[TIMETABLE_TABLE_BYTES(TIMETABLE_MAX_RECORDS)];
static uint8_t area[TIMETABLE_AREA_BYTES(TIMETABLE_MAX_RECORDS)];

/* Ends the program where the library is not one for the header. */
static inline void need_library(void) {
    if (!timetable_library_fits()) {
        fprintf(stderr, "the library is not one for timetable.h %s\n", TIMETABLE_VERSION);
        exit(1);
    }
}

/* The answer's length, which a call returned. Ends the program where it was refused, and says what was. */
static inline size_t accepted(const char *what, int64_t returned) {
    if (returned < 0) {
        fprintf(stderr, "%s: refused %d: %s\n", what, (int)-returned, timetable_refusal_text(-returned));
        exit(1);
    }
    return (size_t)returned;
}

/* The length of the answer to a line of so many bytes. Ends the program where the line is refused. */
static inline size_t answer_to(const char *what, const void *line, size_t length) {
    return accepted(what, timetable_line(state, sizeof state, table, sizeof table, (const uint8_t *)line, length, area,
                                         sizeof area));
}

static inline size_t answer(const char *line) {
    return answer_to(line, line, strlen(line));
}

/* Prints what the user sees. Ends the program where not all of it could be written. */
static inline void print_view(void) {
    size_t length = answer("(view)");
    if (fwrite(area, 1, length, stdout) != length || fflush(stdout) != 0) {
        perror("standard output");
        exit(1);
    }
}

#endif
