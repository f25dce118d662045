/* Calls each function of include/gamiwhoru.h on the library that tests/calls links, and holds each field of each answer to a value
 * written down from document 01. No contract can say in which order the fields of a struct lie, or the arguments of a function come:
 * here the arguments of a call all differ, and so do the fields of an answer that has an element.
 * The last line is a count; the exit status is 0 if nothing differs. */
#include "gamiwhoru.h"

#include <stdio.h>
#include <string.h>

/* Each field's place and size, and each struct's size, where a size_t has 8 bytes: a field lies at the next multiple of its own size. */
#define FIELD(type, field, place, size)                                                                                               \
    _Static_assert(offsetof(struct gamiwhoru_##type, field) == place, #type "." #field " lies elsewhere");                            \
    _Static_assert(sizeof(((struct gamiwhoru_##type *)0)->field) == size, #type "." #field " has another size")
#define SIZE(type, size) _Static_assert(sizeof(struct gamiwhoru_##type) == size, #type " has another size")

FIELD(reply, refusal, 0, 1);
FIELD(reply, value, 8, 8);
FIELD(reply, node, 16, 1);
SIZE(reply, 24);
FIELD(write_reply, refusal, 0, 1);
FIELD(write_reply, length, 8, 8);
SIZE(write_reply, 16);
FIELD(finding_reply, state, 0, 1);
FIELD(finding_reply, name, 8, 8);
FIELD(finding_reply, node, 16, 1);
FIELD(finding_reply, index, 24, 8);
FIELD(finding_reply, term, 32, 4);
SIZE(finding_reply, 40);
FIELD(leader_reply, state, 0, 1);
FIELD(leader_reply, term, 4, 4);
FIELD(leader_reply, leader, 8, 1);
SIZE(leader_reply, 12);
FIELD(unseen_reply, state, 0, 1);
FIELD(unseen_reply, node, 1, 1);
FIELD(unseen_reply, index, 8, 8);
SIZE(unseen_reply, 16);
FIELD(unknown_reply, state, 0, 1);
FIELD(unknown_reply, index, 8, 8);
SIZE(unknown_reply, 16);
FIELD(committed_reply, state, 0, 1);
FIELD(committed_reply, length, 8, 8);
FIELD(committed_reply, owner, 16, 1);
SIZE(committed_reply, 24);

_Static_assert(GAMIWHORU_HERE == 0 && GAMIWHORU_NO_MORE == 1 && GAMIWHORU_BROKEN == 12, "a state has another number");

/* The bytes of a history (docs/LAYOUT.md), and some behind them that are no part of it. */
enum { HISTORY = 25226, BEHIND = 16 };
static uint8_t history[HISTORY + BEHIND];

static unsigned compared, differ;

static void same(const char *call, const char *field, uint64_t got, uint64_t wanted)
{
    compared++;
    if (got != wanted) {
        differ++;
        printf("calls: %s: %s is %llu, not %llu\n", call, field, (unsigned long long)got, (unsigned long long)wanted);
    }
}

/* How many of the bytes from `from` to `to` are another than `wanted`. */
static size_t others(size_t from, size_t to, uint8_t wanted)
{
    size_t n = 0;
    for (size_t i = from; i < to; i++)
        n += history[i] != wanted;
    return n;
}

/* A record, field by field, most significant bit first. The bytes that no field reaches are zeros. */
struct record {
    uint8_t bytes[2048];
    size_t bits;
};

static void put(struct record *r, unsigned width, uint32_t value)
{
    while (width-- > 0) {
        if (value >> width & 1)
            r->bytes[r->bits / 8] |= 0x80 >> r->bits % 8;
        r->bits++;
    }
}

/* Hands the record in, and holds the reply to what it must be. */
static void submit(const char *call, const struct record *r, unsigned refusal, size_t value, unsigned node)
{
    struct gamiwhoru_reply reply = gamiwhoru_submit(history, HISTORY, r->bytes, (r->bits + 7) / 8);
    same(call, "refusal", reply.refusal, refusal);
    same(call, "value", reply.value, value);
    same(call, "node", reply.node, node);
}

/* Entries 1 to 256, that of index i of term 65536 + i and of one byte of content, which is another at the index `other`: so many
 * prefixes of it are new. */
static void view(const char *call, uint32_t node, uint32_t other, size_t made)
{
    struct record r = {{0}, 0};
    put(&r, 4, 1);
    put(&r, 6, node);
    put(&r, 10, 256);
    for (uint32_t i = 1; i <= 256; i++) {
        put(&r, 10, i);
        put(&r, 32, 65536 + i);
        put(&r, 6, 1);
        put(&r, 8, i == other ? 0xc5 : 0x3a);
    }
    submit(call, &r, 0, made, 0);
}

static void commit(const char *call, uint32_t node, uint32_t index, size_t value)
{
    struct record r = {{0}, 0};
    put(&r, 4, 2);
    put(&r, 6, node);
    put(&r, 10, index);
    submit(call, &r, 0, value, 0);
}

static void terms(const char *call, uint32_t old, uint32_t new, uint32_t term, unsigned refusal)
{
    struct record r = {{0}, 0};
    put(&r, 4, 3);
    put(&r, 10, old);
    put(&r, 10, new);
    put(&r, 32, term);
    submit(call, &r, refusal, 0, 0);
}

static void election(const char *call, uint32_t leader, uint32_t term, uint32_t present, uint32_t length, unsigned refusal)
{
    struct record r = {{0}, 0};
    put(&r, 4, 4);
    put(&r, 6, leader);
    put(&r, 32, term);
    put(&r, 1, present);
    put(&r, 10, length);
    submit(call, &r, refusal, 0, 0);
}

/* A leader's log, of kind 7. */
static void kept(const char *call, uint32_t node, uint32_t term, size_t value)
{
    struct record r = {{0}, 0};
    put(&r, 4, 7);
    put(&r, 6, node);
    put(&r, 32, term);
    submit(call, &r, 0, value, 0);
}

static void check(const char *call, size_t value)
{
    struct record r = {{0}, 0};
    put(&r, 4, 5);
    submit(call, &r, 0, value, 0);
}

/* A row: floor 1, commit 2, last index 3, both configurations present and of index 4. */
static void put_row(struct record *r, uint32_t node, uint32_t floor_identity, uint32_t actual_identity)
{
    put(r, 6, node);
    put(r, 10, 1);
    put(r, 10, 2);
    put(r, 10, 3);
    put(r, 1, 1);
    put(r, 10, 4);
    put(r, 32, floor_identity);
    put(r, 1, 1);
    put(r, 10, 4);
    put(r, 32, actual_identity);
}

/* The row of node 40 holds; that of node 41 has two identities, which is rule 3. */
static void rows(const char *call)
{
    struct record r = {{0}, 0};
    put(&r, 4, 6);
    put(&r, 10, 2);
    put_row(&r, 40, 5, 5);
    put_row(&r, 41, 6, 7);
    submit(call, &r, 0, 3, 41);
}

static void finding(const char *call, size_t length, size_t n, const struct gamiwhoru_finding_reply *wanted)
{
    struct gamiwhoru_finding_reply reply = gamiwhoru_finding(history, length, n);
    same(call, "state", reply.state, wanted->state);
    same(call, "name", reply.name, wanted->name);
    same(call, "node", reply.node, wanted->node);
    same(call, "index", reply.index, wanted->index);
    same(call, "term", reply.term, wanted->term);
}

static void leader(const char *call, size_t length, size_t n, const struct gamiwhoru_leader_reply *wanted)
{
    struct gamiwhoru_leader_reply reply = gamiwhoru_leader(history, length, n);
    same(call, "state", reply.state, wanted->state);
    same(call, "term", reply.term, wanted->term);
    same(call, "leader", reply.leader, wanted->leader);
}

static void unseen(const char *call, size_t length, size_t n, const struct gamiwhoru_unseen_reply *wanted)
{
    struct gamiwhoru_unseen_reply reply = gamiwhoru_unseen(history, length, n);
    same(call, "state", reply.state, wanted->state);
    same(call, "node", reply.node, wanted->node);
    same(call, "index", reply.index, wanted->index);
}

static void unknown(const char *call, size_t length, size_t n, const struct gamiwhoru_unknown_reply *wanted)
{
    struct gamiwhoru_unknown_reply reply = gamiwhoru_unknown(history, length, n);
    same(call, "state", reply.state, wanted->state);
    same(call, "index", reply.index, wanted->index);
}

static void committed(const char *call, size_t length, const struct gamiwhoru_committed_reply *wanted)
{
    struct gamiwhoru_committed_reply reply = gamiwhoru_committed(history, length);
    same(call, "state", reply.state, wanted->state);
    same(call, "length", reply.length, wanted->length);
    same(call, "owner", reply.owner, wanted->owner);
}

/* What a call answered and left in a buffer of bytes that were all 0xab: the reply, the bytes, and all others as they were. */
enum { BUFFER = 64 };
static void left(const char *call, struct gamiwhoru_write_reply reply, const uint8_t *buffer, unsigned refusal, const uint8_t *wanted, size_t written)
{
    same(call, "refusal", reply.refusal, refusal);
    same(call, "length", reply.length, written);
    size_t other = 0;
    for (size_t i = 0; i < BUFFER; i++)
        other += buffer[i] != (i < written ? wanted[i] : 0xab);
    same(call, "count of bytes that differ", other, 0);
}

/* The numbers `fields`, written into a buffer of `length` bytes. */
static void write(const char *call, const uint64_t *fields, size_t count, size_t length, unsigned refusal, const uint8_t *wanted, size_t written)
{
    uint8_t buffer[BUFFER];
    memset(buffer, 0xab, sizeof buffer);
    left(call, gamiwhoru_write(fields, count, buffer, length), buffer, refusal, wanted, written);
}
#define WRITE(call, length, refusal, bytes, written, ...)                                                                             \
    write(call, (const uint64_t[]){__VA_ARGS__}, sizeof((const uint64_t[]){__VA_ARGS__}) / sizeof(uint64_t), length, refusal, bytes, written)

/* One record of each kind, and each refusal; the lengths and the numbers of a call all differ. */
static void writer(void)
{
    static const uint8_t rice[] = {0x10, 0x40, 0x10, 0x04, 0, 0, 0, 0x04, 0x47, 0x26, 0x96, 0x36, 0x50};
    static const uint8_t two[] = {0x10, 0x40, 0x20, 0x04, 0, 0, 0, 0x04, 0x1f, 0xf0, 0x0c, 0, 0, 0, 0x08, 0};
    static const uint8_t commit[] = {0x20, 0x40, 0x10};
    static const uint8_t terms[] = {0x30, 0x00, 0x01, 0, 0, 0, 0x02};
    static const uint8_t election[] = {0x40, 0x80, 0, 0, 0, 0xe0, 0};
    static const uint8_t check[] = {0x50};
    static const uint8_t rows[] = {0x60, 0x05, 0x40, 0x04, 0x01, 0x01, 0xe0, 0, 0, 0, 0, 0x2c, 0, 0, 0, 0, 0x03};
    WRITE("write a view", 64, 0, rice, 13, 1, 1, 1, 1, 1, 4, 'r', 'i', 'c', 'e');
    WRITE("write a view of two", 30, 0, two, 16, 1, 1, 2, 1, 1, 1, 255, 3, 2, 0);
    WRITE("write a commit", 3, 0, commit, 3, 2, 1, 1);
    WRITE("write terms", 7, 0, terms, 7, 3, 0, 1, 2);
    WRITE("write an election", 9, 0, election, 7, 4, 2, 3, 1, 0);
    WRITE("write a check", 2, 0, check, 1, 5);
    WRITE("write rows", 18, 0, rows, 17, 6, 1, 20, 1, 1, 7, 1, 0, 5, 1, 0, 3);
    WRITE("write kind 7", 1, 1, NULL, 0, 7, 1);
    WRITE("write kind 2 to the 32 and 2", 1, 1, NULL, 0, 4294967298, 1);
    WRITE("write a list that ends", 0, 2, NULL, 0, 2, 1);
    WRITE("write a list that goes on", 0, 3, NULL, 0, 5, 0);
    WRITE("write node 64", 0, 4, NULL, 0, 2, 64, 1);
    WRITE("write index 2 after 2", 0, 5, NULL, 0, 1, 1, 2, 2, 1, 0, 2, 1, 0);
    WRITE("write into a byte too few", 2, 13, NULL, 0, 2, 1, 1);
}

/* A record, put into an edition in a buffer of `length` bytes. */
static void convert(const char *call, unsigned edition, const uint8_t *record, size_t record_length, size_t length, unsigned refusal, const uint8_t *wanted, size_t written)
{
    uint8_t buffer[BUFFER];
    memset(buffer, 0xab, sizeof buffer);
    left(call, gamiwhoru_convert((uint8_t)edition, record, record_length, buffer, length), buffer, refusal, wanted, written);
}

/* A view there and back, what is copied, and each refusal that is the converter's own; the lengths of a call all differ. */
static void converter(void)
{
    static const uint8_t plain[] = {0x10, 0x40, 0x10, 0x04, 0, 0, 0, 0x04, 0x47, 0x26, 0x96, 0x36, 0x50};
    static const uint8_t marked[] = {0x90, 0x40, 0x10, 0x04, 0, 0, 0, 0x04, 0x23, 0x93, 0x4b, 0x1b, 0x28};
    static const uint8_t configuration[] = {0x90, 0x40, 0x10, 0x04, 0, 0, 0, 0x06, 0x23, 0x93, 0x4b, 0x1b, 0x28};
    static const uint8_t commit[] = {0x20, 0x40, 0x10};
    static const uint8_t unknown_kind[] = {0xf0, 0};
    convert("convert a view to 9", 9, plain, 13, 64, 0, marked, 13);
    convert("convert it back", 1, marked, 13, 14, 0, plain, 13);
    convert("convert a view of the edition", 1, plain, 13, 15, 0, plain, 13);
    convert("convert a view with marks to 9", 9, configuration, 13, 16, 0, configuration, 13);
    convert("convert a commit", 9, commit, 3, 4, 0, commit, 3);
    convert("convert to edition 8", 8, unknown_kind, 2, 5, 4, NULL, 0);
    convert("convert kind 15", 9, unknown_kind, 2, 5, 1, NULL, 0);
    convert("convert a view that ends", 9, plain, 12, 64, 2, NULL, 0);
    convert("convert a configuration entry to 1", 1, configuration, 13, 12, 16, NULL, 0);
    convert("convert into a byte too few", 9, plain, 13, 12, 13, NULL, 0);
    convert("copy into a byte too few", 9, commit, 3, 2, 13, NULL, 0);
}

/* What a reader tells where it has no element: its state, and zeros. */
#define NOTHING(type, said) (&(struct gamiwhoru_##type){.state = said})
#define HERE(type, ...) (&(struct gamiwhoru_##type){.state = 0, __VA_ARGS__})

/* A history of another length: 12 for each function, and no byte is written. */
static void short_by_one(void)
{
    struct record r = {{0x50}, 4};
    memset(history, 0xab, sizeof history);
    same("fresh, a byte short", "answer", gamiwhoru_fresh(history, HISTORY - 1), 12);
    struct gamiwhoru_reply reply = gamiwhoru_submit(history, HISTORY - 1, r.bytes, 1);
    same("submit, a byte short", "refusal", reply.refusal, 12);
    same("submit, a byte short", "value", reply.value, 0);
    same("submit, a byte short", "node", reply.node, 0);
    finding("finding, a byte short", HISTORY - 1, 1, NOTHING(finding_reply, 12));
    leader("leader, a byte short", HISTORY - 1, 2, NOTHING(leader_reply, 12));
    unseen("unseen, a byte short", HISTORY - 1, 3, NOTHING(unseen_reply, 12));
    unknown("unknown, a byte short", HISTORY - 1, 4, NOTHING(unknown_reply, 12));
    committed("committed, a byte short", HISTORY - 1, NOTHING(committed_reply, 12));
    same("a byte short", "count of bytes written", others(0, sizeof history, 0xab), 0);
}

/* Fresh: zeros, as many as a history has and no more, and nothing in it. */
static void fresh(void)
{
    same("length", "answer", gamiwhoru_length(), HISTORY);
    same("fresh", "answer", gamiwhoru_fresh(history, HISTORY), 0);
    same("fresh", "count of bytes that are not zero", others(0, HISTORY, 0), 0);
    same("fresh", "count of bytes written behind it", others(HISTORY, sizeof history, 0xab), 0);
    finding("finding of none", HISTORY, 0, NOTHING(finding_reply, 1));
    leader("leader of none", HISTORY, 0, NOTHING(leader_reply, 1));
    unseen("unseen of none", HISTORY, 0, NOTHING(unseen_reply, 1));
    unknown("unknown of none", HISTORY, 0, NOTHING(unknown_reply, 1));
    committed("committed of none", HISTORY, HERE(committed_reply, .length = 0, .owner = 0));
}

/* Node 12 has another entry 255, and so another prefix at 255 and 256: LG-03 at both, and LG-04 at 256. Nodes 19 and 20 show no view.
 * Leader 12 shows entry 255 as the others have it in the end, and so rewrites its log: LG-01.
 * Index 255 and 256 have no commit term. Both elections are without a log, and lack the last index of a lower commit term, 254. */
static void records(void)
{
    view("view of 7", 7, 0, 256);
    kept("log of leader 12, who has no view", 12, 4000000005, 0);
    view("view of 12", 12, 255, 2);
    kept("log of leader 12, grown", 12, 4000000005, 8);
    commit("commit of 7", 7, 256, 0);
    commit("commit of 12", 12, 256, 0);
    view("view of 13", 13, 0, 0);
    commit("commit of 13", 13, 256, 3);
    commit("commit of 20", 20, 256, 0);
    commit("commit of 19", 19, 253, 0);
    terms("terms", 0, 254, 77777, 0);
    terms("terms from 9 to 8", 9, 8, 70000, 8);
    election("election of 33", 33, 4000000001, 0, 0, 0);
    election("election of 32", 32, 4000000002, 0, 0, 0);
    election("election of 34, who has no view", 34, 4000000003, 1, 2, 9);
    check("check", 4);
    rows("rows");
    view("view of 12, rewritten", 12, 0, 0);
    kept("log of leader 12, rewritten", 12, 4000000005, 0);
}

/* The lists in their order, the element asked for and its neighbours. */
static void lists(void)
{
    finding("finding 0", HISTORY, 0, HERE(finding_reply, .name = 1, .node = 12, .index = 0, .term = 4000000005));
    finding("finding 1", HISTORY, 1, HERE(finding_reply, .name = 3, .node = 12, .index = 255, .term = 65791));
    finding("finding 2", HISTORY, 2, HERE(finding_reply, .name = 3, .node = 12, .index = 256, .term = 65792));
    finding("finding 3", HISTORY, 3, HERE(finding_reply, .name = 4, .node = 12, .index = 256, .term = 0));
    finding("finding 4", HISTORY, 4, HERE(finding_reply, .name = 5, .node = 32, .index = 254, .term = 4000000002));
    finding("finding 5", HISTORY, 5, HERE(finding_reply, .name = 5, .node = 33, .index = 254, .term = 4000000001));
    finding("finding 6", HISTORY, 6, NOTHING(finding_reply, 1));
    leader("leader 0", HISTORY, 0, HERE(leader_reply, .term = 4000000001, .leader = 33));
    leader("leader 1", HISTORY, 1, HERE(leader_reply, .term = 4000000002, .leader = 32));
    leader("leader 2", HISTORY, 2, NOTHING(leader_reply, 1));
    unseen("unseen 0", HISTORY, 0, HERE(unseen_reply, .node = 19, .index = 253));
    unseen("unseen 1", HISTORY, 1, HERE(unseen_reply, .node = 20, .index = 256));
    unseen("unseen 2", HISTORY, 2, NOTHING(unseen_reply, 1));
    unknown("unknown 0", HISTORY, 0, HERE(unknown_reply, .index = 255));
    unknown("unknown 1", HISTORY, 1, HERE(unknown_reply, .index = 256));
    unknown("unknown 2", HISTORY, 2, NOTHING(unknown_reply, 1));
    committed("committed", HISTORY, HERE(committed_reply, .length = 256, .owner = 7));
    same("all calls", "count of bytes written behind the history", others(HISTORY, sizeof history, 0xab), 0);
}

int main(void)
{
    short_by_one();
    fresh();
    records();
    lists();
    writer();
    converter();
    printf("calls: %u fields compared, %u differ\n", compared, differ);
    return differ == 0 ? 0 : 1;
}
