/* Loads a policy and the solver's file, and prints what a reader sees.
 *
 *     load POLICY FILE.xml READER
 *
 * POLICY is a file of subject, isa and rule lines. What is refused is told in words, with the file and the line; then
 * the status is 1, and no view is printed.
 */
#include "store.h"

static uint8_t content[4 * 1024 * 1024];

/* The length of a file, whose bytes are put into `content`. Ends the program where it cannot be read. */
static size_t read_file(const char *name) {
    FILE *file = fopen(name, "rb");
    size_t length = file == NULL ? 0 : fread(content, 1, sizeof content, file);
    if (file == NULL || ferror(file)) {
        perror(name);
        exit(1);
    }
    fclose(file);
    if (length == sizeof content) {
        fprintf(stderr, "%s: the file has %lu bytes or more\n", name, (unsigned long)sizeof content);
        exit(1);
    }
    return length;
}

/* Gives the store each line of a file. */
static void give_lines(const char *name) {
    char place[FILENAME_MAX + 24];
    unsigned long number = 1;
    size_t length = read_file(name);
    for (size_t at = 0, end; at < length; at = end + 1, number++) {
        for (end = at; end < length && content[end] != '\n'; end++) {
        }
        snprintf(place, sizeof place, "%s:%lu", name, number);
        answer_to(place, content + at, end - at);
    }
}

/* Loads the solver's file into the empty table, in place of root and child lines. */
static void load_xml(const char *name) {
    size_t length = read_file(name);
    accepted(name, timetable_load_xml(state, sizeof state, table, sizeof table, content, length, area, sizeof area));
}

int main(int argc, char **argv) {
    /* a login that is cut off here has more bytes than a line may have, and is refused */
    char login[TIMETABLE_MAX_LINE_BYTES + 2];
    if (argc != 4) {
        fprintf(stderr, "load POLICY FILE.xml READER\n");
        return 2;
    }
    need_library();
    give_lines(argv[1]);
    load_xml(argv[2]);
    snprintf(login, sizeof login, "(user %s)", argv[3]);
    answer(login);
    print_view();
    return 0;
}
