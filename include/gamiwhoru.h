/* The functions of target/staticlib/libhistory.a (made by harness/library), for C and C++.
 *
 * The functions are proved, and tests/calls holds these declarations to them. They follow crates/history_c/src/lib.rt and
 * crates/answers/src/numbers.rt, crates/record_writing/src/reply.rt, where each function's whole promise stands; docs/SCOPE.md says what a record does. Nothing is
 * asked of the bytes: any history and any record may be handed in. Each pointer must be that of `length` live bytes, and a
 * history must not overlap the record handed to it.
 *
 * The library wants no heap and has no state of its own: all that is kept is in the caller's history, so calls on different
 * histories may run at the same time. Of C's library it takes memcpy, memmove and memset, and nothing else. A call takes less
 * than 4,096 bytes of stack of its own, as built for x86-64. */
#ifndef GAMIWHORU_H
#define GAMIWHORU_H

#include <stddef.h>
#include <stdint.h>

#ifdef __cplusplus
extern "C" {
#endif

/* What a record is answered: document 01's numbers. */
struct gamiwhoru_reply {
    uint8_t refusal; /* 1 to 10, 12 or 14, or 0 where the record is accepted */
    size_t value;    /* how many prefixes a view made, the sum of the flags, or the rule that fails; 0 where it is refused */
    uint8_t node;    /* the node of a failing row, or 0 */
};

/* What the writer and the converter answer. */
struct gamiwhoru_write_reply {
    uint8_t refusal; /* 1 to 5, as in reading, 13 where the buffer is too short, or the converter's 16; 0 where the record is written */
    size_t length;   /* how many bytes were written; 0 where it is refused */
};

/* A reader's state. */
enum {
    GAMIWHORU_HERE = 0,    /* the element asked for */
    GAMIWHORU_NO_MORE = 1, /* there are not so many */
    GAMIWHORU_BROKEN = 12  /* the history breaks its storage rules */
};

struct gamiwhoru_finding_reply {
    uint8_t state;
    size_t name; /* 1, 3, 4 or 5 for LG-01, LG-03, LG-04, LG-05 */
    uint8_t node;
    size_t index; /* 0 for LG-01 */
    uint32_t term; /* 0 for LG-04, as it is noted */
};

struct gamiwhoru_leader_reply {
    uint8_t state;
    uint32_t term;
    uint8_t leader;
};

struct gamiwhoru_unseen_reply {
    uint8_t state;
    uint8_t node;
    size_t index;
};

struct gamiwhoru_unknown_reply {
    uint8_t state;
    size_t index;
};

struct gamiwhoru_committed_reply {
    uint8_t state;
    size_t length; /* 0 where there is no committed prefix, and so is the owner */
    uint8_t owner;
};

/* How many bytes a history has. */
size_t gamiwhoru_length(void);

/* Makes a fresh history: 0, or 12 where the length is not a history's, and then nothing is written. */
uint8_t gamiwhoru_fresh(uint8_t *history, size_t length);

/* Hands a record to a history. A refused record leaves every byte of it. */
struct gamiwhoru_reply gamiwhoru_submit(uint8_t *history, size_t length, const uint8_t *record, size_t record_length);

/* Writes a record from its numbers: the kind, 1 to 6, then the record's fields in their order, one number a field, a yes/no as 0 or 1, and
 * a content's bytes one number each. 2 says that the numbers end too early, 3 that they go on. The record's bytes are written from the
 * buffer's start, and those behind them are kept; a refused call writes nothing. The buffer must not overlap the numbers. */
struct gamiwhoru_write_reply gamiwhoru_write(const uint64_t *fields, size_t count, uint8_t *buffer, size_t length);

/* Puts a record into an edition of views: 1, or 9 where each entry shows its mark. A view of the other edition is turned into this one,
 * and back to the same bytes; any other record is copied as it is. 4 says that the edition is neither, before the record is read; 16 that a
 * view has a configuration entry, which kind 1 cannot show, before 13. The record's bytes are written from the buffer's start, and those
 * behind them are kept; a refused call writes nothing. The buffer must not overlap the record. */
struct gamiwhoru_write_reply gamiwhoru_convert(uint8_t edition, const uint8_t *record, size_t record_length, uint8_t *buffer, size_t length);

/* The n-th element of a list in printed order, counted from 0. Nothing is written. */
struct gamiwhoru_finding_reply gamiwhoru_finding(const uint8_t *history, size_t length, size_t n);
struct gamiwhoru_leader_reply gamiwhoru_leader(const uint8_t *history, size_t length, size_t n);
struct gamiwhoru_unseen_reply gamiwhoru_unseen(const uint8_t *history, size_t length, size_t n);
struct gamiwhoru_unknown_reply gamiwhoru_unknown(const uint8_t *history, size_t length, size_t n);

/* The committed prefix. */
struct gamiwhoru_committed_reply gamiwhoru_committed(const uint8_t *history, size_t length);

#ifdef __cplusplus
}
#endif

#endif
