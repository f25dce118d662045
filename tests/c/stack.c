/* How much stack the calls of include/gamiwhoru.h take: each runs on a stack of its own that is filled beforehand, and how far that was
 * written is looked at afterwards. It takes recordings, and after each looks through all lists. The exit status is 0 if no call took
 * more than include/gamiwhoru.h says. */
#define _XOPEN_SOURCE 700
#include "gamiwhoru.h"

#include <stdio.h>
#include <string.h>
#include <ucontext.h>

enum { STACK = 65536, SAID = 4096, FILLED = 0xa5, LONGEST_LIST = 256 };
static uint8_t history[25226], record[65535], converted[65535], stack[STACK];
static size_t length, n, most;
static const uint64_t fields[] = {1, 63, 2, 1, 4294967295, 3, 1, 2, 3, 2, 4294967295, 1, 255};
static ucontext_t outside, inside;

static void fresh(void) { gamiwhoru_fresh(history, sizeof history); }
static void submit(void) { gamiwhoru_submit(history, sizeof history, record, length); }
static void write(void) { gamiwhoru_write(fields, sizeof fields / sizeof *fields, record, sizeof record); }
static void convert(void) { gamiwhoru_convert(9, record, length, converted, sizeof converted); }
static void finding(void) { gamiwhoru_finding(history, sizeof history, n); }
static void leader(void) { gamiwhoru_leader(history, sizeof history, n); }
static void unseen(void) { gamiwhoru_unseen(history, sizeof history, n); }
static void unknown(void) { gamiwhoru_unknown(history, sizeof history, n); }
static void committed(void) { gamiwhoru_committed(history, sizeof history); }

static void measure(void (*call)(void))
{
    size_t untouched = 0;
    memset(stack, FILLED, sizeof stack);
    getcontext(&inside);
    inside.uc_stack.ss_sp = stack;
    inside.uc_stack.ss_size = sizeof stack;
    inside.uc_link = &outside;
    makecontext(&inside, call, 0);
    swapcontext(&outside, &inside);
    while (untouched < STACK && stack[untouched] == FILLED)
        untouched++;
    if (STACK - untouched > most)
        most = STACK - untouched;
}

static int recording(const char *name)
{
    uint8_t head[2];
    FILE *file = fopen(name, "rb");
    if (file == NULL)
        return 1;
    measure(fresh);
    while (fread(head, 1, 2, file) == 2) {
        length = fread(record, 1, head[0] * 256u + head[1], file);
        measure(submit);
        measure(convert);
    }
    fclose(file);
    for (n = 0; n <= LONGEST_LIST; n++) {
        measure(finding);
        measure(leader);
        measure(unseen);
        measure(unknown);
    }
    measure(committed);
    measure(write);
    return 0;
}

int main(int argc, char **argv)
{
    for (int i = 1; i < argc; i++)
        if (recording(argv[i]) != 0)
            return 2;
    printf("calls: at most %zu bytes of stack, of %d\n", most, SAID);
    return most <= SAID ? 0 : 1;
}
