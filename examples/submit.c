/* A view and a commit are written and handed to a fresh history, and the committed prefix is asked for. */
#include "gamiwhoru.h"
#include <stdio.h>

static uint8_t history[25226]; /* as many bytes as gamiwhoru_length() says */

static int submit(const uint64_t *fields, size_t count)
{
    uint8_t record[16];
    size_t length = gamiwhoru_write(fields, count, record, sizeof record).length;
    return gamiwhoru_submit(history, sizeof history, record, length).refusal;
}

int main(void)
{
    static const uint64_t view[] = {1, 1, 1, 1, 1, 0}; /* node 1, one entry: index 1, term 1, no content */
    static const uint64_t commit[] = {2, 1, 1};        /* node 1, index 1 */
    int fresh = gamiwhoru_fresh(history, sizeof history);
    int first = submit(view, 6);
    int second = submit(commit, 3);
    struct gamiwhoru_committed_reply kept = gamiwhoru_committed(history, sizeof history);
    printf("answers %d %d %d, committed %zu %d\n", fresh, first, second, kept.length, kept.owner);
    return 0;
}
