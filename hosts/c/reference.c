#include "reference.h"

#include "clash.h"
#include "loops.h"
#include "room.h"
#include "sorting.h"

#include <stdio.h>
#include <stdlib.h>
#include <string.h>

enum { MAX_VERTICES = 1000000, MAX_ELEMENTS = 1000000 };

static struct answer gives(uint32_t first, uint32_t second) {
    return (struct answer){0, first, second};
}

static struct answer refused(uint32_t refusal, uint32_t first, uint32_t second) {
    return (struct answer){refusal, first, second};
}

/* ---- elements and sides ---- */

static uint32_t element_of(uint32_t code) {
    return code / 8;
}

static uint32_t number_of(uint32_t code) {
    return code % 8;
}

/* where the entry of a side stands in E2e of so many columns */
static size_t e2e_place(uint32_t columns, uint32_t side) {
    return columns * ((size_t)element_of(side) - 1) + (number_of(side) - 1);
}

/* where the corner that a side begins at stands in the element list */
static size_t place_of(uint32_t side) {
    return 4 * ((size_t)element_of(side) - 1) + (number_of(side) - 1);
}

static uint32_t side_at(size_t place) {
    return (uint32_t)(8 * (place / 4 + 1) + place % 4 + 1);
}

/* 3 where the fourth entry of the row is 0, else 4. A row of E2e in four columns answers as the element's own does. */
static uint32_t side_count(const uint32_t *rows, uint32_t f) {
    return rows[4 * (size_t)f - 1] == 0 ? 3 : 4;
}

static int is_side(const uint32_t *rows, size_t m, uint32_t code) {
    uint32_t f = element_of(code), i = number_of(code);
    return f >= 1 && f <= m && i >= 1 && i <= side_count(rows, f);
}

static uint32_t next_side(const uint32_t *rows, uint32_t side) {
    uint32_t f = element_of(side);
    return 8 * f + number_of(side) % side_count(rows, f) + 1;
}

static uint32_t previous_side(const uint32_t *rows, uint32_t side) {
    uint32_t f = element_of(side), count = side_count(rows, f);
    return 8 * f + (number_of(side) + count - 2) % count + 1;
}

static uint32_t origin_of(const uint32_t *rows, uint32_t side) {
    return rows[place_of(side)];
}

static uint32_t destination_of(const uint32_t *rows, uint32_t side) {
    return origin_of(rows, next_side(rows, side));
}

uint32_t columns_of(struct slice elements) {
    uint32_t columns = 3;
    for (uint32_t f = 1; f <= elements.len / 4; f++)
        if (side_count(elements.at, f) > columns)
            columns = side_count(elements.at, f);
    return columns;
}

/* ---- checks 1 and 2 ---- */

static struct answer check_sizes(uint32_t n, size_t m, struct slice elements) {
    if (n > MAX_VERTICES || m > MAX_ELEMENTS || elements.len % 4 != 0)
        return refused(1, 0, 0);
    return gives(0, 0);
}

static struct answer check_lengths(uint32_t n, size_t m, struct slice elements, int lengths_unfit) {
    struct answer answer = check_sizes(n, m, elements);
    if (answer.refusal == 0 && lengths_unfit)
        answer = refused(2, 0, 0);
    return answer;
}

static int work_short(uint32_t n, size_t m, struct slice work) {
    return work.len < n + 16 * m;
}

/* ---- building ---- */

/* A list under examination and what is found of it. Arrays over sides, but for E2e, are indexed by place. */
struct study {
    uint32_t n, columns;
    const uint32_t *rows;
    size_t m;
    uint32_t *partner; /* the paired side; 0: border */
    uint32_t *v2e, *e2e, *b2e;
    uint32_t k, side_total;
};

static struct answer check_corners(const struct study *s) {
    for (size_t p = 0; p < 4 * s->m; p++)
        if ((p % 4 < 3 && s->rows[p] == 0) || s->rows[p] > s->n)
            return refused(3, (uint32_t)(p / 4 + 1), (uint32_t)(p % 4 + 1));
    for (size_t p = 0; p < 4 * s->m; p++)
        for (size_t earlier = p - p % 4; earlier < p; earlier++)
            if (s->rows[p] != 0 && s->rows[p] == s->rows[earlier])
                return refused(4, (uint32_t)(p / 4 + 1), (uint32_t)(p % 4 + 1));
    return gives(0, 0);
}

/* Each side beside the two vertices that it joins, the lesser first. */
static uint64_t *sorted_joints(struct study *s) {
    uint64_t *joints = room_for(4 * s->m, sizeof *joints);
    size_t count = 0;
    for (size_t p = 0; p < 4 * s->m; p++) {
        uint32_t side = side_at(p);
        if (!is_side(s->rows, s->m, side))
            continue;
        uint32_t a = origin_of(s->rows, side), b = destination_of(s->rows, side);
        joints[count++] = pair_of(a < b ? a : b, a < b ? b : a, side);
    }
    s->side_total = (uint32_t)count;
    sort_pairs(joints, count);
    return joints;
}

static uint32_t lesser_code(uint32_t a, uint32_t b) {
    return a == 0 || b < a ? b : a;
}

/* Pairs the sides, or finds the least side of three or more (6) or of two that run alike (7). */
static struct answer pair_sides(struct study *s) {
    uint64_t *joints = sorted_joints(s);
    uint32_t crowded = 0, alike = 0;
    for (size_t start = 0, run; start < s->side_total; start += run) {
        run = run_of_pairs(joints + start, s->side_total - start);
        uint32_t first = beside_of(joints[start]);
        if (run >= 3) {
            crowded = lesser_code(crowded, first);
        } else if (run == 2) {
            uint32_t second = beside_of(joints[start + 1]);
            if (origin_of(s->rows, first) == origin_of(s->rows, second))
                alike = lesser_code(alike, first);
            s->partner[place_of(first)] = second;
            s->partner[place_of(second)] = first;
        }
    }
    free(joints);
    if (crowded != 0)
        return refused(6, element_of(crowded), number_of(crowded));
    if (alike != 0)
        return refused(7, element_of(alike), number_of(alike));
    return gives(0, 0);
}

/* 0: none */
static uint32_t turn_of(const struct study *s, uint32_t side) {
    uint32_t partner = s->partner[place_of(side)];
    return partner == 0 ? 0 : next_side(s->rows, partner);
}

/* Whether the turns from `first` on list `valence` sides and end as a turn order does. */
static int is_turn_order(const struct study *s, uint32_t first, int first_is_turn, uint32_t valence) {
    uint32_t listed = 1, side = first;
    while (turn_of(s, side) != 0 && turn_of(s, side) != first && listed <= valence) {
        side = turn_of(s, side);
        listed++;
    }
    int ends = turn_of(s, side) == first || (turn_of(s, side) == 0 && !first_is_turn);
    return listed == valence && ends;
}

/* For each vertex the side where its turn order would begin: one that is nobody's turn, else any. A vertex without
   sides has the empty turn order. */
static struct answer check_turn_orders(const struct study *s) {
    unsigned char *is_turn = room_for(4 * s->m, 1);
    uint32_t *first = room_for(s->n, sizeof *first), *valence = room_for(s->n, sizeof *valence);
    struct answer answer = gives(0, 0);
    for (size_t p = 0; p < 4 * s->m; p++)
        if (s->rows[p] != 0 && turn_of(s, side_at(p)) != 0)
            is_turn[place_of(turn_of(s, side_at(p)))] = 1;
    for (size_t p = 0; p < 4 * s->m; p++) {
        if (s->rows[p] == 0)
            continue;
        uint32_t v = s->rows[p] - 1;
        valence[v]++;
        if (first[v] == 0 || !is_turn[p])
            first[v] = side_at(p);
    }
    for (uint32_t v = s->n; v >= 1; v--)
        if (valence[v - 1] != 0 && !is_turn_order(s, first[v - 1], is_turn[place_of(first[v - 1])], valence[v - 1]))
            answer = refused(8, v, 0);
    free(is_turn);
    free(first);
    free(valence);
    return answer;
}

/* The code of what is opposite a side; a border side gets the next border number. */
static uint32_t opposite_of(struct study *s, uint32_t side) {
    uint32_t partner = s->partner[place_of(side)];
    if (partner != 0)
        return partner;
    s->b2e[s->k++] = side;
    return 8 * s->k;
}

/* The least side from each vertex. No corner names a vertex without sides, whose entry stays 0. */
static void write_least_sides(struct study *s) {
    for (size_t p = 4 * s->m; p-- > 0;)
        if (s->rows[p] != 0)
            s->v2e[s->rows[p] - 1] = side_at(p);
}

static void write_tables(struct study *s) {
    for (size_t p = 0; p < 4 * s->m; p++)
        if (s->rows[p] != 0)
            s->e2e[e2e_place(s->columns, side_at(p))] = opposite_of(s, side_at(p));
    write_least_sides(s);
    for (uint32_t b = 1; b <= s->k; b++)
        s->v2e[destination_of(s->rows, s->b2e[b - 1]) - 1] = 8 * b;
}

/* Checks 3 to 8 in their order, but for 5, which is reserved. */
static struct answer check_sides(struct study *s) {
    struct answer answer = check_corners(s);
    if (answer.refusal == 0)
        answer = pair_sides(s);
    if (answer.refusal == 0)
        answer = check_turn_orders(s);
    return answer;
}

/* A look at every two elements must come to the same as sorting. */
static void check_clash(const struct study *s, struct clash sorted) {
    struct clash looked = clash_by_pairs(s->rows, s->m);
    if (looked.lower == sorted.lower && looked.higher == sorted.higher)
        return;
    fprintf(stderr, "reference: a look at every two elements finds %u,%u to clash, sorting %u,%u\n", looked.lower,
            looked.higher, sorted.lower, sorted.higher);
    exit(2);
}

/* Check 18, in both ways where the list is short. */
static struct answer check_meeting(const struct study *s) {
    enum { SHORT = 60 };
    struct clash clash = clash_by_sorting(s->rows, s->m);
    if (s->m <= SHORT)
        check_clash(s, clash);
    return clash.lower == 0 ? gives(0, 0) : refused(18, clash.lower, clash.higher);
}

/* Checks 3 to 8 and then 18; then the tables, k and the number of edges. */
static struct answer examine(struct study *s) {
    struct answer answer = check_sides(s);
    if (answer.refusal == 0)
        answer = check_meeting(s);
    if (answer.refusal != 0)
        return answer;
    write_tables(s);
    return gives(s->k, (s->side_total + s->k) / 2);
}

static struct study study_of(uint32_t n, struct slice elements) {
    size_t m = elements.len / 4;
    struct study s = {.n = n, .columns = columns_of(elements), .rows = elements.at, .m = m};
    s.partner = room_for(4 * m, sizeof(uint32_t));
    s.v2e = room_for(n, sizeof(uint32_t));
    s.e2e = room_for(s.columns * m, sizeof(uint32_t));
    s.b2e = room_for(4 * m, sizeof(uint32_t));
    return s;
}

static void drop_study(struct study *s) {
    free(s->partner);
    free(s->v2e);
    free(s->e2e);
    free(s->b2e);
}

static void copy_entries(uint32_t *to, const uint32_t *from, size_t count) {
    if (count != 0)
        memcpy(to, from, count * sizeof(uint32_t));
}

static int same_table(const uint32_t *table, size_t len, struct slice given) {
    return given.len == len && (len == 0 || memcmp(table, given.at, len * sizeof(uint32_t)) == 0);
}

static void clear_entries(struct slice s) {
    for (size_t i = 0; i < s.len; i++)
        s.at[i] = 0;
}

struct answer reference_columns(uint32_t n, struct slice elements) {
    struct answer answer = check_sizes(n, elements.len / 4, elements);
    if (answer.refusal == 0)
        answer = gives(columns_of(elements), 0);
    return answer;
}

struct answer reference_build(const struct mesh *mesh, struct slice work) {
    size_t m = mesh->elements.len / 4;
    int lengths_unfit = mesh->v2e.len != mesh->n || mesh->e2e.len != columns_of(mesh->elements) * m ||
                        work_short(mesh->n, m, work);
    struct answer answer = check_lengths(mesh->n, m, mesh->elements, lengths_unfit);
    if (answer.refusal != 0)
        return answer;
    struct study s = study_of(mesh->n, mesh->elements);
    answer = examine(&s);
    if (answer.refusal == 0 && mesh->b2e.len < s.k)
        answer = refused(9, s.k, 0);
    if (answer.refusal == 0) {
        copy_entries(mesh->v2e.at, s.v2e, mesh->n);
        copy_entries(mesh->e2e.at, s.e2e, s.columns * m);
        copy_entries(mesh->b2e.at, s.b2e, s.k);
    }
    drop_study(&s);
    clear_entries(work);
    return answer;
}

int tables_but_for_18(uint32_t n, struct slice elements, struct mesh *t) {
    struct study s = study_of(n, elements);
    if (check_sides(&s).refusal != 0) {
        drop_study(&s);
        return 0;
    }
    write_tables(&s);
    uint32_t *rows = room_for(elements.len, sizeof *rows);
    copy_entries(rows, elements.at, elements.len);
    free(s.partner);
    *t = (struct mesh){n, 0, {rows, elements.len}, {s.v2e, n}, {s.e2e, s.columns * s.m}, {s.b2e, s.k}};
    return 1;
}

/* ---- siblings ---- */

/* The sides that join the same two vertices come together, in order of code: each is sent to the one after it, the last
   to the first. */
static void write_siblings(struct study *s, uint32_t *siblings) {
    uint64_t *joints = sorted_joints(s);
    for (size_t start = 0, run; start < s->side_total; start += run) {
        run = run_of_pairs(joints + start, s->side_total - start);
        for (size_t i = 0; i < run; i++)
            siblings[place_of(beside_of(joints[start + i]))] = beside_of(joints[start + (i + 1) % run]);
    }
    free(joints);
}

struct answer reference_siblings(const struct mesh *mesh, struct slice siblings, struct slice work) {
    size_t m = mesh->elements.len / 4;
    int lengths_unfit = mesh->v2e.len != mesh->n || siblings.len != 4 * m || work_short(mesh->n, m, work);
    struct answer answer = check_lengths(mesh->n, m, mesh->elements, lengths_unfit);
    if (answer.refusal != 0)
        return answer;
    struct study s = study_of(mesh->n, mesh->elements);
    answer = check_corners(&s);
    if (answer.refusal == 0) {
        write_least_sides(&s);
        copy_entries(mesh->v2e.at, s.v2e, mesh->n);
        clear_entries(siblings);
        write_siblings(&s, siblings.at);
    }
    drop_study(&s);
    clear_entries(work);
    return answer;
}

/* ---- recovery ---- */

/* E2e as rows of four: in three columns every element is a triangle. */
static uint32_t *rows_of_four(struct slice e2e, size_t m) {
    uint32_t *rows = room_for(4 * m, sizeof *rows), columns = e2e.len == 3 * m ? 3 : 4;
    for (size_t f = 0; f < m; f++)
        copy_entries(rows + 4 * f, e2e.at + columns * f, columns);
    return rows;
}

/* In a list with this E2e, a side begins where its turn begins: sides are gathered into sets that
   share their origin, and V2e names one set for each vertex, or none where it has 0. */
static size_t set_of(size_t *parent, size_t p) {
    while (parent[p] != p) {
        parent[p] = parent[parent[p]];
        p = parent[p];
    }
    return p;
}

static size_t *origin_sets(const uint32_t *e2e, size_t m) {
    size_t *parent = room_for(4 * m, sizeof *parent);
    for (size_t p = 0; p < 4 * m; p++)
        parent[p] = p;
    for (size_t p = 0; p < 4 * m; p++)
        if (is_side(e2e, m, side_at(p)) && is_side(e2e, m, e2e[p]))
            parent[set_of(parent, p)] = set_of(parent, place_of(next_side(e2e, e2e[p])));
    return parent;
}

/* B2e of any list with this E2e: the sides with a border opposite, in order. Returns their number. */
static size_t border_sides(const uint32_t *e2e, size_t m, uint32_t *sides) {
    size_t k = 0;
    for (size_t p = 0; p < 4 * m; p++)
        if (is_side(e2e, m, side_at(p)) && number_of(e2e[p]) == 0)
            sides[k++] = side_at(p);
    return k;
}

/* A side with origin v in any list with these tables. 0: v has no side, or there is no such list, as a comparison of
   the candidate's V2e will show. */
static uint32_t side_from(uint32_t entry, const uint32_t *e2e, size_t m, const uint32_t *borders, size_t k) {
    if (is_side(e2e, m, entry))
        return entry;
    uint32_t b = element_of(entry);
    if (number_of(entry) != 0 || b < 1 || b > k)
        return 0;
    return next_side(e2e, borders[b - 1]);
}

/* The only list of m elements that can have these tables; 0 stands where no vertex was found. */
static struct slice candidate_list(const struct mesh *mesh, size_t m) {
    uint32_t *e2e = rows_of_four(mesh->e2e, m);
    size_t *parent = origin_sets(e2e, m);
    uint32_t *borders = room_for(4 * m, sizeof *borders), *vertex = room_for(4 * m, sizeof *vertex);
    uint32_t *list = room_for(4 * m, sizeof *list);
    size_t k = border_sides(e2e, m, borders);
    for (uint32_t v = 1; v <= mesh->n; v++) {
        uint32_t side = side_from(mesh->v2e.at[v - 1], e2e, m, borders, k);
        if (side != 0)
            vertex[set_of(parent, place_of(side))] = v;
    }
    for (size_t p = 0; p < 4 * m; p++)
        if (is_side(e2e, m, side_at(p)))
            list[p] = vertex[set_of(parent, p)];
    free(e2e);
    free(parent);
    free(borders);
    free(vertex);
    return (struct slice){list, 4 * m};
}

static int recovery_unfit(const struct mesh *mesh, size_t m, struct slice work) {
    return mesh->v2e.len != mesh->n || (mesh->e2e.len != 3 * m && mesh->e2e.len != 4 * m) ||
           mesh->elements.len != 4 * m || work_short(mesh->n, m, work);
}

struct answer reference_recover(const struct mesh *mesh, uint32_t m, struct slice work) {
    struct answer answer = check_lengths(mesh->n, m, mesh->elements, recovery_unfit(mesh, m, work));
    if (answer.refusal != 0)
        return answer;
    struct slice list = candidate_list(mesh, m);
    struct study s = study_of(mesh->n, list);
    int found = examine(&s).refusal == 0 && same_table(s.v2e, s.n, mesh->v2e) &&
                same_table(s.e2e, s.columns * s.m, mesh->e2e);
    if (found)
        copy_entries(mesh->elements.at, list.at, list.len);
    drop_study(&s);
    free(list.at);
    clear_entries(work);
    return found ? gives(0, 0) : refused(10, 0, 0);
}

/* ---- what queries read ---- */

static size_t elements_in(const struct mesh *mesh) {
    return mesh->elements.len / 4;
}

static struct answer check_query(const struct mesh *mesh) {
    size_t m = elements_in(mesh);
    uint32_t columns = mesh->columns == 0 ? columns_of(mesh->elements) : mesh->columns;
    int lengths_unfit = (columns != 3 && columns != 4) || mesh->v2e.len != mesh->n || mesh->e2e.len != columns * m ||
                        mesh->b2e.len > 4 * m;
    return check_lengths(mesh->n, m, mesh->elements, lengths_unfit);
}

/* The columns that a query goes by: past check 2 they are those that E2e's length makes. There is an element. */
static uint32_t columns_read(const struct mesh *mesh) {
    return (uint32_t)(mesh->e2e.len / elements_in(mesh));
}

static int has_vertex(const struct mesh *mesh, uint32_t v) {
    return v >= 1 && v <= mesh->n;
}

static int has_side(const struct mesh *mesh, uint32_t code) {
    return is_side(mesh->elements.at, elements_in(mesh), code);
}

static int has_border(const struct mesh *mesh, uint32_t code) {
    return number_of(code) == 0 && element_of(code) >= 1 && element_of(code) <= mesh->b2e.len;
}

static int has_half_edge(const struct mesh *mesh, uint32_t code) {
    return has_side(mesh, code) || has_border(mesh, code);
}

/* Each read gives 0 where the entry names nothing: 0 is no code and no vertex. */

static uint32_t read_e2e(const struct mesh *mesh, uint32_t side) {
    uint32_t columns = columns_read(mesh);
    if (number_of(side) > columns)
        return 0;
    uint32_t code = mesh->e2e.at[e2e_place(columns, side)];
    return has_half_edge(mesh, code) ? code : 0;
}

static uint32_t read_b2e(const struct mesh *mesh, uint32_t border) {
    uint32_t code = mesh->b2e.at[element_of(border) - 1];
    return has_side(mesh, code) ? code : 0;
}

static uint32_t read_v2e(const struct mesh *mesh, uint32_t v) {
    uint32_t code = mesh->v2e.at[v - 1];
    return has_half_edge(mesh, code) ? code : 0;
}

/* An entry of 0 isn't broken where a query begins at the vertex, whatever sides the list gives it. */
static int is_unused(const struct mesh *mesh, uint32_t v) {
    return mesh->v2e.at[v - 1] == 0;
}

static uint32_t read_origin(const struct mesh *mesh, uint32_t side) {
    uint32_t v = origin_of(mesh->elements.at, side);
    return has_vertex(mesh, v) ? v : 0;
}

static uint32_t read_destination(const struct mesh *mesh, uint32_t side) {
    uint32_t v = destination_of(mesh->elements.at, side);
    return has_vertex(mesh, v) ? v : 0;
}

static uint32_t next_border(const struct mesh *mesh, uint32_t border) {
    uint32_t side = read_b2e(mesh, border);
    uint32_t v = side == 0 ? 0 : read_origin(mesh, side);
    uint32_t code = v == 0 ? 0 : mesh->v2e.at[v - 1];
    return has_border(mesh, code) ? code : 0;
}

static struct answer found(uint32_t read) {
    return read == 0 ? refused(12, 0, 0) : gives(read, 0);
}

/* Checks 1, 2 and 11, the last by whether what is asked about is there. */
static struct answer check_asked(const struct mesh *mesh, int (*is_there)(const struct mesh *, uint32_t),
                                 uint32_t asked) {
    struct answer answer = check_query(mesh);
    if (answer.refusal == 0 && !is_there(mesh, asked))
        answer = refused(11, 0, 0);
    return answer;
}

/* ---- queries of one number ---- */

struct answer reference_opposite(const struct mesh *mesh, uint32_t code) {
    struct answer checked = check_asked(mesh, has_half_edge, code);
    if (checked.refusal != 0)
        return checked;
    return found(number_of(code) == 0 ? read_b2e(mesh, code) : read_e2e(mesh, code));
}

struct answer reference_next(const struct mesh *mesh, uint32_t code) {
    struct answer checked = check_asked(mesh, has_half_edge, code);
    if (checked.refusal != 0)
        return checked;
    return found(number_of(code) == 0 ? next_border(mesh, code) : next_side(mesh->elements.at, code));
}

struct answer reference_previous(const struct mesh *mesh, uint32_t code) {
    struct answer checked = check_asked(mesh, has_side, code);
    if (checked.refusal != 0)
        return checked;
    return gives(previous_side(mesh->elements.at, code), 0);
}

struct answer reference_element(const struct mesh *mesh, uint32_t code) {
    struct answer checked = check_asked(mesh, has_side, code);
    if (checked.refusal != 0)
        return checked;
    return gives(element_of(code), 0);
}

struct answer reference_origin(const struct mesh *mesh, uint32_t code) {
    struct answer checked = check_asked(mesh, has_half_edge, code);
    if (checked.refusal != 0)
        return checked;
    if (number_of(code) != 0)
        return found(read_origin(mesh, code));
    uint32_t side = read_b2e(mesh, code);
    return found(side == 0 ? 0 : read_destination(mesh, side));
}

struct answer reference_destination(const struct mesh *mesh, uint32_t code) {
    struct answer checked = check_asked(mesh, has_half_edge, code);
    if (checked.refusal != 0)
        return checked;
    if (number_of(code) != 0)
        return found(read_destination(mesh, code));
    uint32_t side = read_b2e(mesh, code);
    return found(side == 0 ? 0 : read_origin(mesh, side));
}

struct answer reference_across(const struct mesh *mesh, uint32_t code) {
    struct answer checked = check_asked(mesh, has_side, code);
    if (checked.refusal != 0)
        return checked;
    uint32_t opposite = read_e2e(mesh, code);
    if (opposite == 0)
        return refused(12, 0, 0);
    return gives(number_of(opposite) == 0 ? 0 : element_of(opposite), 0);
}

struct answer reference_halfedge_is_border(const struct mesh *mesh, uint32_t code) {
    struct answer checked = check_asked(mesh, has_half_edge, code);
    if (checked.refusal != 0)
        return checked;
    return gives(number_of(code) == 0, 0);
}

enum { INNER = 0, RIM = 1, UNUSED = 2 };

struct answer reference_vertex_is_border(const struct mesh *mesh, uint32_t v) {
    struct answer checked = check_asked(mesh, has_vertex, v);
    if (checked.refusal != 0)
        return checked;
    if (is_unused(mesh, v))
        return gives(UNUSED, 0);
    uint32_t code = read_v2e(mesh, v);
    if (code == 0)
        return refused(12, 0, 0);
    return gives(number_of(code) == 0 ? RIM : INNER, 0);
}

/* ---- lists ---- */

/* Of a vertex that isn't unused. 0: broken */
static uint32_t start_side(const struct mesh *mesh, uint32_t v) {
    uint32_t code = read_v2e(mesh, v);
    if (code == 0 || number_of(code) != 0)
        return code;
    uint32_t side = read_b2e(mesh, code);
    return side == 0 ? 0 : next_side(mesh->elements.at, side);
}

enum step { ENDS, GOES_ON, BROKEN };

/* Whether a ring goes on after a side, and to which. */
static enum step turn_by_e2e(const struct mesh *mesh, uint32_t start, uint32_t side, uint32_t *turn) {
    uint32_t opposite = read_e2e(mesh, side);
    if (opposite == 0)
        return BROKEN;
    if (number_of(opposite) == 0)
        return ENDS;
    *turn = next_side(mesh->elements.at, opposite);
    return *turn == start ? ENDS : GOES_ON;
}

/* The sides of the ring of v, which isn't unused, into `sides`, which has room for m. Returns 0 where it is broken. */
static size_t ring_sides(const struct mesh *mesh, uint32_t v, uint32_t *sides) {
    uint32_t start = start_side(mesh, v), side = start;
    if (start == 0)
        return 0;
    for (size_t count = 1; count <= elements_in(mesh); count++) {
        sides[count - 1] = side;
        enum step step = turn_by_e2e(mesh, start, side, &side);
        if (step == BROKEN)
            return 0;
        if (step == ENDS)
            return count;
    }
    return 0;
}

/* The list into out, or 12 for an empty one, or 13. */
static struct answer list_into(const uint32_t *list, size_t count, struct slice out) {
    if (count == 0)
        return refused(12, 0, 0);
    if (out.len < count)
        return refused(13, (uint32_t)count, 0);
    copy_entries(out.at, list, count);
    return gives((uint32_t)count, 0);
}

struct answer reference_ring(const struct mesh *mesh, uint32_t v, struct slice out) {
    struct answer checked = check_asked(mesh, has_vertex, v);
    if (checked.refusal != 0)
        return checked;
    if (is_unused(mesh, v))
        return gives(0, 0);
    uint32_t *list = room_for(elements_in(mesh), sizeof *list);
    size_t count = ring_sides(mesh, v, list);
    for (size_t i = 0; i < count; i++)
        list[i] = element_of(list[i]);
    struct answer answer = list_into(list, count, out);
    free(list);
    return answer;
}

/* The neighbours into `list`, which has room for m + 1. Returns 0 where something is broken. */
static size_t list_neighbours(const struct mesh *mesh, uint32_t v, const uint32_t *sides, size_t ring_count,
                              uint32_t *list) {
    size_t count = 0;
    uint32_t code = read_v2e(mesh, v);
    if (number_of(code) == 0)
        list[count++] = read_origin(mesh, read_b2e(mesh, code));
    for (size_t i = 0; i < ring_count; i++)
        list[count++] = read_destination(mesh, sides[i]);
    for (size_t i = 0; i < count; i++)
        if (list[i] == 0)
            return 0;
    return count;
}

struct answer reference_neighbours(const struct mesh *mesh, uint32_t v, struct slice out) {
    struct answer checked = check_asked(mesh, has_vertex, v);
    if (checked.refusal != 0)
        return checked;
    if (is_unused(mesh, v))
        return gives(0, 0);
    size_t room = elements_in(mesh) + 1;
    uint32_t *sides = room_for(room, sizeof *sides), *list = room_for(room, sizeof *list);
    size_t ring_count = ring_sides(mesh, v, sides);
    size_t count = ring_count == 0 ? 0 : list_neighbours(mesh, v, sides, ring_count, list);
    struct answer answer = list_into(list, count, out);
    free(sides);
    free(list);
    return answer;
}

/* The border numbers into `list`, which has room for k. Returns 0 where something is broken. */
static size_t list_border_loop(const struct mesh *mesh, uint32_t b, uint32_t *list) {
    uint32_t border = 8 * b;
    for (size_t count = 1; count <= mesh->b2e.len; count++) {
        list[count - 1] = element_of(border);
        border = next_border(mesh, border);
        if (border == 0)
            return 0;
        if (border == 8 * b)
            return count;
    }
    return 0;
}

struct answer reference_border_loop(const struct mesh *mesh, uint32_t b, struct slice out) {
    struct answer answer = check_query(mesh);
    if (answer.refusal != 0)
        return answer;
    if (b < 1 || b > mesh->b2e.len)
        return refused(11, 0, 0);
    uint32_t *list = room_for(mesh->b2e.len, sizeof *list);
    answer = list_into(list, list_border_loop(mesh, b, list), out);
    free(list);
    return answer;
}

/* ---- holes ---- */

/* Following every loop must come to the same as sets. */
static void check_loops(const uint32_t *next, size_t k, const uint32_t *hole, int all_come_back) {
    uint32_t *walked = room_for(k, sizeof *walked);
    int comes_back = loops_by_walks(next, k, walked);
    if (comes_back != all_come_back || (comes_back && memcmp(walked, hole, k * sizeof *hole) != 0)) {
        fprintf(stderr, "reference: following every loop finds other holes than sets\n");
        exit(2);
    }
    free(walked);
}

/* The hole of each border half-edge into `hole`, in both ways where there are few. Returns 0 where a loop gives 12. */
static int find_holes(const struct mesh *mesh, uint32_t *hole) {
    enum { FEW = 60 };
    size_t k = mesh->b2e.len;
    uint32_t *next = room_for(k, sizeof *next);
    for (uint32_t b = 1; b <= k; b++)
        next[b - 1] = element_of(next_border(mesh, 8 * b));
    int all_come_back = loops_by_sets(next, k, hole);
    if (k <= FEW)
        check_loops(next, k, hole, all_come_back);
    free(next);
    return all_come_back;
}

/* Returns the number of holes. */
static uint32_t write_holes(const uint32_t *found, size_t k, uint32_t *hole, uint32_t *lengths) {
    uint32_t holes = 0;
    for (size_t i = 0; i < k; i++) {
        if (found[i] > holes)
            lengths[holes++] = 0;
        hole[i] = found[i];
        lengths[found[i] - 1]++;
    }
    return holes;
}

struct answer reference_holes(const struct mesh *mesh, struct slice hole, struct slice lengths, struct slice work) {
    size_t k = mesh->b2e.len;
    struct answer answer = check_query(mesh);
    if (answer.refusal == 0 && work_short(mesh->n, elements_in(mesh), work))
        answer = refused(2, 0, 0);
    if (answer.refusal != 0)
        return answer;
    uint32_t *found = room_for(k, sizeof *found);
    if (!find_holes(mesh, found))
        answer = refused(12, 0, 0);
    else if (hole.len < k || lengths.len < k)
        answer = refused(13, (uint32_t)k, 0);
    else
        answer = gives(write_holes(found, k, hole.at, lengths.at), 0);
    free(found);
    clear_entries(work);
    return answer;
}

/* ---- walker ---- */

struct answer reference_walker_start(const struct mesh *mesh, uint32_t v, struct record *walker) {
    struct answer checked = check_asked(mesh, has_vertex, v);
    if (checked.refusal != 0)
        return checked;
    if (is_unused(mesh, v)) {
        *walker = (struct record){0, 0, 0};
        return gives(0, 0);
    }
    uint32_t start = start_side(mesh, v);
    if (start == 0)
        return refused(12, 0, 0);
    *walker = (struct record){start, start, 0};
    return gives(0, 0);
}

struct answer reference_walker_step(const struct mesh *mesh, struct record *walker) {
    struct answer checked = check_query(mesh);
    if (checked.refusal != 0)
        return checked;
    if (walker->next == 0)
        return gives(0, 0);
    size_t m = elements_in(mesh);
    if (!has_side(mesh, walker->start) || !has_side(mesh, walker->next) || walker->count >= m)
        return refused(12, 0, 0);
    uint32_t turn = 0;
    enum step step = turn_by_e2e(mesh, walker->start, walker->next, &turn);
    if (step == BROKEN || (step == GOES_ON && walker->count + 1 == m))
        return refused(12, 0, 0);
    uint32_t element = element_of(walker->next);
    *walker = (struct record){walker->start, step == ENDS ? 0 : turn, walker->count + 1};
    return gives(element, 0);
}
