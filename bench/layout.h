// The bytes of tables and policies (docs/FORMAT.md), for the driver.
#ifndef LAYOUT_H
#define LAYOUT_H
#include <stddef.h>
#include <stdint.h>
#include <string.h>

enum {
    RECORD = 32,
    COUNT_BYTES = 4,
    LEVEL_MAX = 11,
    RECORDS_MAX = 16384,
    POLICY_BYTES = 68872,
    SUBJECTS_AT = 8,
    RULES_MAX = 128,
    RULES_AT = 2312,
    RULE_BYTES = 520,
    STEPS_AT = 8
};

// A record: its first byte (a level, an axis or zero) and its label.
static inline void put_record(uint8_t *at, int first, const char *label, size_t n) {
    at[0] = (uint8_t)first;
    at[1] = (uint8_t)n;
    memcpy(at + 2, label, n);
}

// The record of a node, shown on days 1 to 366.
static inline void put_node(uint8_t *at, int level, const char *label, size_t n) {
    put_record(at, level, label, n);
    at[26] = 1;
    at[28] = 366 & 255;
    at[29] = 366 >> 8;
}

static inline void put_count(uint8_t *table, size_t n) {
    for (int k = 0; k < COUNT_BYTES; k++) table[k] = (uint8_t)(n >> (8 * k));
}

// Subject k, and the count of subjects with it.
static inline void put_subject(uint8_t *policy, int k, const char *name) {
    policy[0] = (uint8_t)(k + 1);
    put_record(policy + SUBJECTS_AT + k * RECORD, 0, name, strlen(name));
}

// The next rule: accept a right (by its bit) on a path without brackets, for a subject.
static inline void put_rule(uint8_t *policy, int right, const char *path, int subject) {
    uint8_t *at = policy + RULES_AT + policy[2]++ * RULE_BYTES;
    at[0] = 1;
    at[1] = (uint8_t)right;
    at[2] = (uint8_t)subject;
    while (*path) {
        int far = path[1] == '/';
        path += far ? 2 : 1;
        size_t n = strcspn(path, "/");
        put_record(at + STEPS_AT + at[3] * RECORD, far, path, n);
        at[3]++;
        path += n;
    }
}
#endif
