// Gives one line or document to a state and a table through each given library, and prints a line a library: the CPU
// nanoseconds of the median run, of the lower and of the upper quartile, and the number returned.
//   store CALL STATE TABLE GIVEN RUNS LIBRARY.so..
// CALL is timetable_line or timetable_load_xml; STATE, TABLE and GIVEN are files with their bytes. The libraries take turns, each run starts from the same bytes,
// and all must return the same number and leave the same bytes.
#include <dlfcn.h>
#include <stddef.h>
#include <stdint.h>
#include <stdio.h>
#include <stdlib.h>
#include <string.h>
#include <time.h>

enum { STATE_MAX = 1 << 17, TABLE_MAX = 1 << 20, AREA_BYTES = 1 << 20, GIVEN_MAX = 1 << 23, RUNS_MAX = 1000, LIBRARIES_MAX = 2 };

typedef int64_t call_function(uint8_t *state, size_t state_n, uint8_t *table, size_t table_n, const uint8_t *given, size_t given_n, uint8_t *area, size_t area_n);

typedef struct {
    uint8_t state[STATE_MAX], table[TABLE_MAX], area[AREA_BYTES];
} Store;

static Store start, after[LIBRARIES_MAX];
static uint8_t given[GIVEN_MAX];

// The bytes of a file, and how many.
static size_t read_file(const char *name, uint8_t *bytes, size_t max) {
    FILE *file = fopen(name, "rb");
    size_t n = file ? fread(bytes, 1, max, file) : 0;
    if (!file || n == max) {
        fprintf(stderr, "%s cannot be read, or is too long\n", name);
        exit(2);
    }
    fclose(file);
    return n;
}

static int64_t cpu_ns(void) {
    struct timespec t;
    clock_gettime(CLOCK_PROCESS_CPUTIME_ID, &t);
    return t.tv_sec * 1000000000LL + t.tv_nsec;
}

static int ascending(const void *a, const void *b) {
    int64_t x = *(const int64_t *)a, y = *(const int64_t *)b;
    return (x > y) - (x < y);
}

// A function of a library.
static call_function *open_library(const char *name, const char *function) {
    void *handle = dlopen(name, RTLD_NOW | RTLD_LOCAL);
    void *symbol = handle ? dlsym(handle, function) : 0;
    if (!symbol) {
        fprintf(stderr, "%s\n", dlerror());
        exit(2);
    }
    call_function *call;
    memcpy(&call, &symbol, sizeof symbol);
    return call;
}

int main(int argc, char **argv) {
    int libraries = argc - 6;
    if (libraries < 1 || libraries > LIBRARIES_MAX) return 2;
    size_t state_n = read_file(argv[2], start.state, STATE_MAX), table_n = read_file(argv[3], start.table, TABLE_MAX);
    size_t given_n = read_file(argv[4], given, GIVEN_MAX);
    int runs = atoi(argv[5]);
    if (runs < 1 || runs > RUNS_MAX) return 2;
    call_function *call[LIBRARIES_MAX];
    for (int k = 0; k < libraries; k++) call[k] = open_library(argv[6 + k], argv[1]);
    static int64_t ns[LIBRARIES_MAX][RUNS_MAX];
    int64_t returned[LIBRARIES_MAX];
    for (int run = 0; run < runs; run++)
        for (int k = 0; k < libraries; k++) {
            Store *s = &after[k];
            *s = start;
            int64_t began = cpu_ns();
            returned[k] = call[k](s->state, state_n, s->table, table_n, given, given_n, s->area, AREA_BYTES);
            ns[k][run] = cpu_ns() - began;
        }
    for (int k = 1; k < libraries; k++)
        if (returned[k] != returned[0] || memcmp(&after[k], &after[0], sizeof(Store)) != 0) {
            fprintf(stderr, "the libraries differ: %lld and %lld\n", (long long)returned[0], (long long)returned[k]);
            return 1;
        }
    for (int k = 0; k < libraries; k++) {
        qsort(ns[k], (size_t)runs, sizeof ns[k][0], ascending);
        int64_t *t = ns[k];
        printf("%lld %lld %lld %lld\n", (long long)t[runs / 2], (long long)t[runs / 4], (long long)t[runs * 3 / 4], (long long)returned[k]);
    }
    return 0;
}
