/* One call, made on the kernel between guard pages and compared with the reference. */
#ifndef CALLS_H
#define CALLS_H

#include "reference.h"

#include <stddef.h>
#include <stdint.h>

enum role { ELEMENTS, V2E, E2E, B2E, SIBLINGS, WORK, OUT, HOLE, LENGTHS, RECORD, SIZE, POINTS, ROLES };

enum { RECORD_LENGTH = 3, SIZE_LENGTH = 2, CODE_CALLS = 8, VERTEX_LISTS = 2, QUERIES = CODE_CALLS + VERTEX_LISTS + 4 };

struct call;

/* An exported function and its reference. */
struct exported {
    const char *name;
    uint64_t (*kernel)(const struct call *call, const struct slice *buffers);
    struct answer (*reference)(const struct call *call, const struct slice *buffers);
    unsigned writes; /* a bit for each role that an answer may change */
    int is_query, is_edit;
};

/* What a call is given: n, the m that recovery is told, the columns that a query is told, the vertex, border or
   half-edge asked about, what each buffer holds, and the text that is read. An edit has its n and m in the buffer SIZE
   alone. POINTS has two entries for each double. */
struct call {
    const struct exported *exported;
    uint32_t n, m, columns, number;
    struct slice given[ROLES];
    struct text text;
};

extern const struct exported build_call, columns_call, recover_call, siblings_call, shape_call, read_off_call;
extern const struct exported swap_call, split_call, contract_call;
extern const struct exported vertex_test, border_list, holes_call, start_call, step_call;
extern const struct exported code_calls[CODE_CALLS], vertex_lists[VERTEX_LISTS];
/* all of these that are told columns, but for holes, which has a work buffer */
extern const struct exported *const queries[QUERIES];

/* What a report of a mismatch names beside the call. */
struct progress {
    uint64_t seed;
    const char *family;
    unsigned long calls;
};
extern struct progress progress;

/* Makes room for the largest buffers and takes over faults. */
void prepare_calls(void);
/* The room that each buffer of a role has, in entries. */
size_t room_of(enum role role);

/* Compares a call, in both placements, and hands over the answer; `results`, where not null, then shows what each
   buffer holds, until the next call. A query told 0 is made again told the list's own columns, which must change
   nothing. A mismatch is printed and ends the program. Points are compared bit by bit, but that a midpoint's number
   which is to be no number may be any such. */
struct answer compare(const struct call *call, struct slice *results);

/* Compares a call whose answer is known beforehand; where its second number isn't named, it is 0. */
void compare_answer(const struct call *call, struct answer known);
void compare_with(const struct call *call, uint32_t refusal, uint32_t first);

/* A call with 2^32 entries more in one of its buffers is refused so, with 1 or 2. That buffer is memory that faults
   when touched. */
void refuse_far(const struct call *call, enum role role, uint32_t refusal);

/* A call with 2^32 entries in a buffer that may be longer has the same answer as with the length given; memory past the
   first page of it faults when touched. */
void compare_far(const struct call *call, enum role role);

/* A call with a text that is too long for the reference, and read where it stands, is refused so. */
void refuse_far_text(const struct call *call, struct answer known);

/* Makes a call on the kernel alone, so many times, for its processor time. Where they take more than `allowed` seconds
   three times in a row, this is printed and ends the program. */
void check_time(const struct call *call, int times, double allowed);

/* Prints what is wrong with the last call, and ends the program. */
void fail(const char *what);
/* Ends the program after a mismatch. */
void stop(void);

#endif
