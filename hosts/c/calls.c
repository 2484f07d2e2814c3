#define _DEFAULT_SOURCE
#include "calls.h"

#include "borzhanu.h"
#include "contracting.h"
#include "guarded.h"
#include "off_reading.h"
#include "shaping.h"
#include "splitting.h"
#include "swapping.h"

#include <signal.h>
#include <stdio.h>
#include <stdlib.h>
#include <string.h>
#include <time.h>
#include <unistd.h>

static const char *const role_names[ROLES] = {"elements", "v2e",  "e2e",     "b2e",    "siblings", "work",
                                              "out",      "hole", "lengths", "walker", "size",     "points"};

/* what the calls that compare one case may take */
enum { SECONDS = 120 };

#define BIT(role) (1u << (role))
#define TABLES(b) \
    (b)[ELEMENTS].at, (b)[ELEMENTS].len, (b)[V2E].at, (b)[V2E].len, (b)[E2E].at, (b)[E2E].len, (b)[B2E].at, (b)[B2E].len
#define MESH(call, b) (call)->n, (call)->columns, TABLES(b)

static struct mesh mesh_of(const struct call *call, const struct slice *b) {
    return (struct mesh){call->n, call->columns, b[ELEMENTS], b[V2E], b[E2E], b[B2E]};
}

static uint64_t kernel_build(const struct call *call, const struct slice *b) {
    return borzhanu_build(call->n, TABLES(b), b[WORK].at, b[WORK].len);
}

static struct answer expect_build(const struct call *call, const struct slice *b) {
    struct mesh mesh = mesh_of(call, b);
    return reference_build(&mesh, b[WORK]);
}

static uint64_t kernel_columns(const struct call *call, const struct slice *b) {
    return borzhanu_columns(call->n, b[ELEMENTS].at, b[ELEMENTS].len);
}

static struct answer expect_columns(const struct call *call, const struct slice *b) {
    return reference_columns(call->n, b[ELEMENTS]);
}

static uint64_t kernel_recover(const struct call *call, const struct slice *b) {
    return borzhanu_recover(call->n, call->m, b[V2E].at, b[V2E].len, b[E2E].at, b[E2E].len, b[ELEMENTS].at,
                            b[ELEMENTS].len, b[WORK].at, b[WORK].len);
}

static struct answer expect_recover(const struct call *call, const struct slice *b) {
    struct mesh mesh = mesh_of(call, b);
    return reference_recover(&mesh, call->m, b[WORK]);
}

static uint64_t kernel_siblings(const struct call *call, const struct slice *b) {
    return borzhanu_siblings(call->n, b[ELEMENTS].at, b[ELEMENTS].len, b[V2E].at, b[V2E].len, b[SIBLINGS].at,
                             b[SIBLINGS].len, b[WORK].at, b[WORK].len);
}

static struct answer expect_siblings(const struct call *call, const struct slice *b) {
    struct mesh mesh = mesh_of(call, b);
    return reference_siblings(&mesh, b[SIBLINGS], b[WORK]);
}

static uint64_t kernel_shape(const struct call *call, const struct slice *b) {
    return borzhanu_shape(call->n, b[ELEMENTS].at, b[ELEMENTS].len, b[WORK].at, b[WORK].len);
}

static struct answer expect_shape(const struct call *call, const struct slice *b) {
    struct mesh mesh = mesh_of(call, b);
    return reference_shape(&mesh, b[WORK]);
}

static uint64_t kernel_read_off(const struct call *call, const struct slice *b) {
    return borzhanu_read_off(call->text.at, call->text.len, b[ELEMENTS].at, b[ELEMENTS].len);
}

static struct answer expect_read_off(const struct call *call, const struct slice *b) {
    return reference_read_off(call->text, b[ELEMENTS]);
}

static uint64_t kernel_holes(const struct call *call, const struct slice *b) {
    return borzhanu_holes(MESH(call, b), b[HOLE].at, b[HOLE].len, b[LENGTHS].at, b[LENGTHS].len, b[WORK].at,
                          b[WORK].len);
}

static struct answer expect_holes(const struct call *call, const struct slice *b) {
    struct mesh mesh = mesh_of(call, b);
    return reference_holes(&mesh, b[HOLE], b[LENGTHS], b[WORK]);
}

static uint64_t kernel_swap(const struct call *call, const struct slice *b) {
    return borzhanu_swap(b[SIZE].at, TABLES(b), b[WORK].at, b[WORK].len, call->number);
}

static struct lent lent_by(const struct slice *b, int with_points) {
    return (struct lent){b[SIZE].at, b[ELEMENTS], b[V2E], b[E2E], b[B2E], b[WORK], with_points, b[POINTS]};
}

static struct answer expect_swap(const struct call *call, const struct slice *b) {
    struct lent lent = lent_by(b, 0);
    return reference_swap(&lent, call->number);
}

static uint64_t kernel_split(const struct call *call, const struct slice *b) {
    return borzhanu_split(b[SIZE].at, TABLES(b), (double *)(void *)b[POINTS].at, b[POINTS].len / 2, b[WORK].at,
                          b[WORK].len, call->number);
}

static struct answer expect_split(const struct call *call, const struct slice *b) {
    struct lent lent = lent_by(b, 1);
    return reference_split(&lent, call->number);
}

static uint64_t kernel_contract(const struct call *call, const struct slice *b) {
    return borzhanu_contract(b[SIZE].at, TABLES(b), (double *)(void *)b[POINTS].at, b[POINTS].len / 2, b[WORK].at,
                             b[WORK].len, call->number);
}

static struct answer expect_contract(const struct call *call, const struct slice *b) {
    struct lent lent = lent_by(b, 1);
    return reference_contract(&lent, call->number);
}

static uint64_t kernel_walker_start(const struct call *call, const struct slice *b) {
    return borzhanu_walker_start(MESH(call, b), call->number, (borzhanu_walker *)(void *)b[RECORD].at);
}

static struct answer expect_walker_start(const struct call *call, const struct slice *b) {
    struct mesh mesh = mesh_of(call, b);
    return reference_walker_start(&mesh, call->number, (struct record *)(void *)b[RECORD].at);
}

static uint64_t kernel_walker_step(const struct call *call, const struct slice *b) {
    return borzhanu_walker_step(MESH(call, b), (borzhanu_walker *)(void *)b[RECORD].at);
}

static struct answer expect_walker_step(const struct call *call, const struct slice *b) {
    struct mesh mesh = mesh_of(call, b);
    return reference_walker_step(&mesh, (struct record *)(void *)b[RECORD].at);
}

#define OF_ONE_NUMBER(name)                                                                \
    static uint64_t kernel_##name(const struct call *call, const struct slice *b) {       \
        return borzhanu_##name(MESH(call, b), call->number);                               \
    }                                                                                      \
    static struct answer expect_##name(const struct call *call, const struct slice *b) {  \
        struct mesh mesh = mesh_of(call, b);                                               \
        return reference_##name(&mesh, call->number);                                      \
    }

#define OF_A_LIST(name)                                                                    \
    static uint64_t kernel_##name(const struct call *call, const struct slice *b) {       \
        return borzhanu_##name(MESH(call, b), call->number, b[OUT].at, b[OUT].len);        \
    }                                                                                      \
    static struct answer expect_##name(const struct call *call, const struct slice *b) {  \
        struct mesh mesh = mesh_of(call, b);                                               \
        return reference_##name(&mesh, call->number, b[OUT]);                              \
    }

OF_ONE_NUMBER(opposite)
OF_ONE_NUMBER(next)
OF_ONE_NUMBER(previous)
OF_ONE_NUMBER(element)
OF_ONE_NUMBER(origin)
OF_ONE_NUMBER(destination)
OF_ONE_NUMBER(across)
OF_ONE_NUMBER(halfedge_is_border)
OF_ONE_NUMBER(vertex_is_border)
OF_A_LIST(ring)
OF_A_LIST(neighbours)
OF_A_LIST(border_loop)

#define EXPORTED(name, writes) {#name, kernel_##name, expect_##name, writes, 0, 0}
#define QUERY(name, writes) {#name, kernel_##name, expect_##name, writes, 1, 0}
#define EDIT(name, points) {#name, kernel_##name, expect_##name, EDITED | BIT(WORK) | (points), 0, 1}
#define EDITED (BIT(SIZE) | BIT(ELEMENTS) | BIT(V2E) | BIT(E2E) | BIT(B2E))

const struct exported build_call = EXPORTED(build, BIT(V2E) | BIT(E2E) | BIT(B2E) | BIT(WORK));
const struct exported columns_call = EXPORTED(columns, 0);
const struct exported recover_call = EXPORTED(recover, BIT(ELEMENTS) | BIT(WORK));
const struct exported siblings_call = EXPORTED(siblings, BIT(V2E) | BIT(SIBLINGS) | BIT(WORK));
const struct exported shape_call = EXPORTED(shape, BIT(WORK));
const struct exported read_off_call = EXPORTED(read_off, BIT(ELEMENTS));
const struct exported swap_call = EDIT(swap, 0);
const struct exported split_call = EDIT(split, BIT(POINTS));
const struct exported contract_call = EDIT(contract, BIT(POINTS));
const struct exported holes_call = QUERY(holes, BIT(HOLE) | BIT(LENGTHS) | BIT(WORK));
const struct exported start_call = QUERY(walker_start, BIT(RECORD));
const struct exported step_call = QUERY(walker_step, BIT(RECORD));

const struct exported code_calls[CODE_CALLS] = {
    QUERY(opposite, 0), QUERY(next, 0),   QUERY(previous, 0),           QUERY(element, 0),
    QUERY(origin, 0),   QUERY(across, 0), QUERY(halfedge_is_border, 0), QUERY(destination, 0),
};
const struct exported vertex_test = QUERY(vertex_is_border, 0);
const struct exported vertex_lists[VERTEX_LISTS] = {QUERY(ring, BIT(OUT)), QUERY(neighbours, BIT(OUT))};
const struct exported border_list = QUERY(border_loop, BIT(OUT));

const struct exported *const queries[QUERIES] = {
    &code_calls[0], &code_calls[1], &code_calls[2],   &code_calls[3],   &code_calls[4], &code_calls[5], &code_calls[6],
    &code_calls[7], &vertex_test,   &vertex_lists[0], &vertex_lists[1], &border_list,   &start_call,    &step_call,
};

/* ---- reporting ---- */

struct progress progress;
static const struct call *current;
static enum placement current_placement;

static void print_buffer(const char *name, struct slice s) {
    enum { SHOWN = 60 };
    printf("  %s, %zu entries:", name, s.len);
    for (size_t i = 0; i < s.len && i < SHOWN; i++)
        printf(" %u", s.at[i]);
    printf(s.len > SHOWN ? " ..\n" : "\n");
}

/* Bytes other than those of plain text are shown as two hexadecimal digits after a backslash. */
static void print_text(struct text text) {
    enum { SHOWN = 1000 };
    printf("  text, %zu bytes: ", text.len);
    for (size_t i = 0; i < text.len && i < SHOWN; i++)
        printf(text.at[i] >= ' ' && text.at[i] <= '~' && text.at[i] != '\\' ? "%c" : "\\%02x", text.at[i]);
    printf(text.len > SHOWN ? " ..\n" : "\n");
}

static void print_current(const char *what) {
    printf("MISMATCH: borzhanu_%s: %s\n", current->exported->name, what);
    printf("  family '%s', seed %llu, after %lu calls, %s of each buffer at a guard page\n", progress.family,
           (unsigned long long)progress.seed, progress.calls, current_placement == END_AT_GUARD ? "end" : "start");
    printf("  n %u, told m %u, told columns %u, number asked about %u\n", current->n, current->m, current->columns,
           current->number);
    for (int role = 0; role < ROLES; role++)
        print_buffer(role_names[role], current->given[role]);
    print_text(current->text);
}

void stop(void) {
    fflush(stdout);
    _exit(1);
}

void fail(const char *what) {
    print_current(what);
    stop();
}

static void on_fault(int number) {
    fail(number == SIGALRM ? "the call doesn't end" : "the call touched memory outside its buffers");
}

static void fail_answer(struct answer want, struct answer got) {
    print_current("another answer");
    printf("  expected refusal %u, numbers %u %u\n", want.refusal, want.first, want.second);
    printf("  got      refusal %u, numbers %u %u\n", got.refusal, got.first, got.second);
    stop();
}

static void fail_entry(const char *what, int role, size_t i, uint32_t want, uint32_t got) {
    print_current(what);
    printf("  %s entry %zu: expected %u, got %u\n", role_names[role], i, want, got);
    stop();
}

/* ---- comparing one call ---- */

static struct guarded memory[ROLES], text_memory;
static uint32_t *expected_room[ROLES];

/* of the longest text, in bytes */
enum { TEXT_ROOM = 24000000 };

size_t room_of(enum role role) {
    const size_t m = BORZHANU_MAX_ELEMENTS + 2, n = BORZHANU_MAX_VERTICES + 2;
    const size_t room[ROLES] = {4 * m, n,     4 * m, 4 * m,         4 * m,       n + 16 * m,
                                4 * m, 4 * m, 4 * m, RECORD_LENGTH, SIZE_LENGTH, ENTRIES_OF_A_POINT * n};
    return room[role];
}

void prepare_calls(void) {
    for (int role = 0; role < ROLES; role++) {
        memory[role] = guarded_memory(room_of((enum role)role));
        expected_room[role] = malloc(room_of((enum role)role) * sizeof(uint32_t));
        if (expected_room[role] == NULL)
            exit(2);
    }
    text_memory = guarded_memory(TEXT_ROOM / sizeof(uint32_t));
    signal(SIGSEGV, on_fault);
    signal(SIGBUS, on_fault);
    signal(SIGALRM, on_fault);
}

static void copy_into(uint32_t *to, struct slice from) {
    if (from.len != 0)
        memcpy(to, from.at, from.len * sizeof(uint32_t));
}

static void check_same(const char *what, int role, const uint32_t *want, const uint32_t *got, size_t start,
                       size_t end) {
    if (start >= end || memcmp(want + start, got + start, (end - start) * sizeof(uint32_t)) == 0)
        return;
    for (size_t i = start; i < end; i++)
        if (want[i] != got[i])
            fail_entry(what, role, i, want[i], got[i]);
}

/* How many entries of a role list, tables and points take, in buffers of an edit that may be longer; B2e isn't among
   these. */
static size_t held_entries(const struct slice *buffers, int role) {
    const uint32_t *size = buffers[SIZE].at;
    struct slice list = {buffers[ELEMENTS].at, 4 * (size_t)size[1]};
    if (list.len > buffers[ELEMENTS].len)
        fail("the m that was left has no room in the list");
    if (role == ELEMENTS)
        return list.len;
    if (role == V2E)
        return size[0];
    if (role == POINTS)
        return ENTRIES_OF_A_POINT * (size_t)size[0];
    return role == E2E ? columns_of(list) * (size_t)size[1] : SIZE_LENGTH;
}

/* What was held before an edit or is held after it, whichever is more. */
static size_t most_held(const struct call *call, const struct slice *left, int role) {
    size_t before = held_entries(call->given, role), after = held_entries(left, role);
    return before > after ? before : after;
}

/* A split writes a point after those that are there. */
static size_t first_written(const struct call *call, int role) {
    return role == POINTS && call->exported == &split_call ? held_entries(call->given, role) : 0;
}

/* How many entries of a role an answer writes; the entries past them stay as they were. */
static size_t written_entries(const struct call *call, const struct slice *left, int role, struct answer answer) {
    if (answer.refusal != 0 || (call->exported->writes & BIT(role)) == 0)
        return 0;
    if (role == HOLE)
        return call->given[B2E].len;
    if (call->exported == &read_off_call)
        return 4 * (size_t)answer.second;
    if (call->exported->is_edit && role != B2E)
        return most_held(call, left, role) - first_written(call, role);
    return role == B2E || role == OUT || role == LENGTHS ? answer.first : call->given[role].len;
}

static void check_as_it_was(const struct call *call, const struct slice *left, int role, size_t start, size_t end) {
    check_same("what should be as it was isn't", role, call->given[role].at, left[role].at, start, end);
}

/* Between the new and the old length an edit leaves zeros; of points these are +0.0. */
static void check_cleared(const struct call *call, const struct slice *left) {
    static const enum role shortened[] = {ELEMENTS, V2E, E2E, POINTS};
    for (size_t i = 0; i < sizeof shortened / sizeof *shortened; i++) {
        enum role role = shortened[i];
        if ((call->exported->writes & BIT(role)) == 0)
            continue;
        size_t before = held_entries(call->given, role);
        for (size_t at = held_entries(left, role); at < before; at++)
            if (left[role].at[at] != 0)
                fail_entry("what a smaller mesh has left behind isn't 0", role, at, 0, left[role].at[at]);
    }
}

/* What doesn't depend on the reference: what must be as it was is, the work buffer is clean, and an edit has cleared
   what it took away. */
static void check_left(const struct call *call, const struct slice *left, struct answer got) {
    for (int role = 0; role < ROLES; role++) {
        if (role == WORK && got.refusal != 1 && got.refusal != 2) {
            for (size_t i = 0; i < left[role].len; i++)
                if (left[role].at[i] != 0)
                    fail_entry("the work buffer isn't clean", role, i, 0, left[role].at[i]);
        } else {
            size_t written = written_entries(call, left, role, got);
            size_t first = written == 0 ? 0 : first_written(call, role);
            check_as_it_was(call, left, role, 0, first);
            check_as_it_was(call, left, role, first + written, call->given[role].len);
        }
    }
    if (call->exported->is_edit && got.refusal == 0)
        check_cleared(call, left);
}

static struct answer taken_apart(uint64_t returned) {
    return (struct answer){borzhanu_refusal(returned), borzhanu_first(returned), borzhanu_second(returned)};
}

static void place_buffer(const struct call *call, enum placement placement, int role, struct slice *buffers) {
    buffers[role].len = call->given[role].len;
    buffers[role].at = placed(&memory[role], call->given[role].len, placement);
    copy_into(buffers[role].at, call->given[role]);
}

static void place_buffers(const struct call *call, enum placement placement, struct slice *buffers) {
    for (int role = 0; role < ROLES; role++)
        place_buffer(call, placement, role, buffers);
    current_placement = placement;
}

/* What a call wrote is put back to what it was given; the rest was found as it was. */
static void place_written(const struct call *call, enum placement placement, struct slice *buffers) {
    for (int role = 0; role < ROLES; role++)
        if (call->exported->writes & BIT(role))
            place_buffer(call, placement, role, buffers);
}

static struct text placed_text(struct text text, enum placement placement) {
    uint8_t *at = placed_bytes(&text_memory, text.len, placement);
    if (text.len != 0)
        memcpy(at, text.at, text.len);
    return (struct text){at, text.len};
}

static struct answer kernel_answer(const struct call *call, const struct slice *buffers) {
    current = call;
    return taken_apart(call->exported->kernel(call, buffers));
}

static int is_nan(const uint32_t *entries) {
    double number;
    memcpy(&number, entries, sizeof number);
    return number != number;
}

/* Where a number of a midpoint is no number, which one it is isn't promised: any is taken for the one expected. */
static void accept_any_nan(const struct call *call, const struct slice *expected, const struct slice *left) {
    size_t first = first_written(call, POINTS);
    for (size_t at = first; at < first + ENTRIES_OF_A_POINT; at += 2)
        if (is_nan(expected[POINTS].at + at) && is_nan(left[POINTS].at + at))
            memcpy(left[POINTS].at + at, expected[POINTS].at + at, sizeof(double));
}

static void check_answer(const struct call *call, struct answer want, const struct slice *buffers) {
    struct answer got = kernel_answer(call, buffers);
    progress.calls++;
    if (memcmp(&want, &got, sizeof want) != 0)
        fail_answer(want, got);
}

static void call_kernel(const struct call *call, struct answer want, const struct slice *expected,
                        const struct slice *buffers) {
    check_answer(call, want, buffers);
    check_left(call, buffers, want);
    if (want.refusal == 0 && call->exported == &split_call)
        accept_any_nan(call, expected, buffers);
    for (int role = 0; role < ROLES; role++)
        if (call->exported->writes & BIT(role))
            check_same("another result", role, expected[role].at, buffers[role].at, 0, call->given[role].len);
}

static void call_placed(const struct call *call, struct answer want, const struct slice *expected,
                        enum placement placement) {
    struct slice buffers[ROLES];
    struct call made = *call;
    place_buffers(call, placement, buffers);
    made.text = placed_text(call->text, placement);
    call_kernel(&made, want, expected, buffers);
    if (made.text.len != 0 && memcmp(made.text.at, call->text.at, made.text.len) != 0)
        fail("the text isn't as it was");
    if (call->exported->is_query && call->columns == 0) {
        made.columns = columns_of(call->given[ELEMENTS]);
        place_written(&made, placement, buffers);
        call_kernel(&made, want, expected, buffers);
    }
    current = call;
}

struct answer compare(const struct call *call, struct slice *results) {
    struct slice expected[ROLES];
    current = call;
    for (int role = 0; role < ROLES; role++) {
        expected[role] = call->given[role];
        if (call->exported->writes & BIT(role)) {
            expected[role].at = expected_room[role];
            copy_into(expected[role].at, call->given[role]);
        }
    }
    struct answer want = call->exported->reference(call, expected);
    alarm(SECONDS);
    call_placed(call, want, expected, END_AT_GUARD);
    call_placed(call, want, expected, START_AT_GUARD);
    if (results != NULL)
        memcpy(results, expected, sizeof expected);
    return want;
}

void compare_answer(const struct call *call, struct answer known) {
    struct answer answer = compare(call, NULL);
    if (memcmp(&known, &answer, sizeof known) != 0)
        fail_answer(known, answer);
}

void compare_with(const struct call *call, uint32_t refusal, uint32_t first) {
    compare_answer(call, (struct answer){refusal, first, 0});
}

static const size_t far = (size_t)1 << 32;

void refuse_far(const struct call *call, enum role role, uint32_t refusal) {
    static uint32_t *closed;
    struct slice buffers[ROLES];
    if (closed == NULL)
        closed = closed_memory(2 * far);
    place_buffers(call, END_AT_GUARD, buffers);
    buffers[role] = (struct slice){closed, call->given[role].len + far};
    alarm(SECONDS);
    struct answer want = {refusal, 0, 0};
    check_answer(call, want, buffers);
    buffers[role] = call->given[role];
    check_left(call, buffers, want);
}

void compare_far(const struct call *call, enum role role) {
    struct slice expected[ROLES], buffers[ROLES];
    struct answer want = compare(call, expected);
    place_buffers(call, END_AT_GUARD, buffers);
    size_t len = role == POINTS ? 2 * far : far;
    buffers[role] = (struct slice){closed_but_for_a_page(len), len};
    copy_into(buffers[role].at, call->given[role]);
    call_kernel(call, want, expected, buffers);
}

void refuse_far_text(const struct call *call, struct answer known) {
    struct slice buffers[ROLES];
    place_buffers(call, END_AT_GUARD, buffers);
    alarm(SECONDS);
    check_answer(call, known, buffers);
    check_left(call, buffers, known);
}

/* ---- time ---- */

static double processor_seconds(void) {
    struct timespec now;
    clock_gettime(CLOCK_PROCESS_CPUTIME_ID, &now);
    return (double)now.tv_sec + 1e-9 * (double)now.tv_nsec;
}

/* Of up to so many calls: it is enough to have seen that they take longer than is allowed. */
static double seconds_of(const struct call *call, int times, double allowed) {
    struct slice buffers[ROLES];
    double taken = 0;
    alarm(SECONDS);
    place_buffers(call, END_AT_GUARD, buffers);
    double began = processor_seconds();
    while (times-- > 0 && taken <= allowed) {
        kernel_answer(call, buffers);
        taken = processor_seconds() - began;
    }
    return taken;
}

void check_time(const struct call *call, int times, double allowed) {
    enum { TRIES = 3 };
    double least = seconds_of(call, times, allowed);
    for (int i = 1; i < TRIES && least > allowed; i++) {
        double other = seconds_of(call, times, allowed);
        least = other < least ? other : least;
    }
    if (least <= allowed)
        return;
    print_current("the call is too slow");
    printf("  %d calls: allowed %.1f s of processor time, taken at least %.1f s\n", times, allowed, least);
    stop();
}
