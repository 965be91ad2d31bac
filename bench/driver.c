// Runs one case of the lower crate through crate `trials`, for callgrind.
//   driver rights RULE [REPEAT]     the rights of every node of a tree whose leaves all stand on level 11, under 128 copies of a rule
//   driver select PATH NODES SHAPE  a selection in a tree of NODES nodes: `deep` (leaves on level 11) or `flat` (siblings under the root)
#include "layout.h"
#include <stdio.h>
#include <stdlib.h>

int64_t trial_rights(const uint8_t *policy, size_t policy_n, size_t u, const uint8_t *table, size_t table_n, uint8_t *out, size_t out_n);
int64_t trial_select(const uint8_t *policy, size_t policy_n, size_t u, const uint8_t *table, size_t table_n, const uint16_t *shown, size_t shown_n,
                     const uint8_t *path, size_t path_n, uint8_t *marks, size_t marks_n);

static uint8_t table[COUNT_BYTES + RECORDS_MAX * RECORD], policy[POLICY_BYTES], out[RECORDS_MAX];
static uint16_t shown[RECORDS_MAX];

// A tree of n nodes: chains down to level 11 under the root, or all siblings under the root.
static size_t build(size_t n, int deep) {
    for (size_t i = 0; i < n; i++) {
        size_t level = i == 0 ? 0 : deep ? (i - 1) % LEVEL_MAX + 1 : 1;
        put_node(table + COUNT_BYTES + i * RECORD, (int)level, "a", 1);
        shown[i] = (uint16_t)i;
    }
    put_count(table, n);
    return COUNT_BYTES + n * RECORD;
}

int main(int argc, char **argv) {
    put_subject(policy, 0, "u");
    int64_t n = -3;
    if (argc == 3 && strcmp(argv[1], "rights") == 0) {
        size_t nodes = 1 + LEVEL_MAX * 1000;
        size_t bytes = build(nodes, 1);
        for (int k = 0; k < RULES_MAX; k++) put_rule(policy, 2, argv[2], 0);
        n = trial_rights(policy, sizeof policy, 0, table, bytes, out, nodes);
    } else if (argc == 5 && strcmp(argv[1], "select") == 0) {
        size_t nodes = strtoul(argv[3], 0, 10);
        if (nodes == 0 || nodes > RECORDS_MAX) return 2;
        size_t bytes = build(nodes, strcmp(argv[4], "deep") == 0);
        n = trial_select(policy, sizeof policy, 0, table, bytes, shown, nodes, (const uint8_t *)argv[2], strlen(argv[2]), out, nodes);
    }
    long sum = 0;
    for (size_t i = 0; i < sizeof out; i++) sum += out[i] != 0;
    printf("%lld %ld\n", (long long)n, sum);
    return n < 0;
}
