/* Reads OFF files and says of each what building finds: edges, borders, openings, and vertices that no face uses.

       read FILE..
*/
#include "borzhanu.h"

#include <stdio.h>
#include <stdlib.h>

/* Prints a refusal, where a call returned one. The place of 16 is a line of the file, that of 17 a face. */
static int refused(const char *name, uint64_t returned) {
    uint32_t refusal = borzhanu_refusal(returned), first = borzhanu_first(returned);
    if (refusal == 0)
        return 0;
    printf("%s", name);
    if (refusal == BORZHANU_OFF_UNFIT)
        printf(", line %u", first);
    if (refusal == BORZHANU_FACE_UNFIT)
        printf(", face %u", first);
    printf(": refusal %u at %u,%u: %s\n", refusal, first, borzhanu_second(returned), borzhanu_refusal_text(refusal));
    return 1;
}

/* Memory with room for so many bytes, those of `before` kept; also for none it isn't null. */
static void *room_for(void *before, size_t bytes) {
    void *room = realloc(before, bytes + 1);
    if (room == NULL) {
        fprintf(stderr, "no memory for %zu bytes\n", bytes);
        exit(1);
    }
    return room;
}

static uint32_t *numbers(size_t count) {
    return room_for(NULL, count * sizeof(uint32_t));
}

/* The bytes of a file; null where it can't be read. */
static uint8_t *bytes_of(const char *name, size_t *len) {
    FILE *file = fopen(name, "rb");
    uint8_t *bytes = NULL;
    size_t room = 0, count = 0;
    if (file == NULL)
        return NULL;
    do {
        room = 2 * room + 4096;
        bytes = room_for(bytes, room);
        count += fread(bytes + count, 1, room - count, file);
    } while (count == room);
    if (ferror(file)) {
        free(bytes);
        bytes = NULL;
    }
    fclose(file);
    *len = count;
    return bytes;
}

/* Four entries for each vertex, four for each element, and the work buffer: B2e and the two outputs of holes need k
   entries each, and k is at most n. */
static size_t room_of_tables(uint32_t n, size_t m) {
    return 4 * (size_t)n + 4 * m + borzhanu_work_length(n, m);
}

/* Builds the tables in that much room and prints what they say. */
static void describe(const char *name, uint32_t n, size_t m, const uint32_t *elements, uint32_t *room) {
    uint32_t *v2e = room, *b2e = v2e + n, *hole = b2e + n, *lengths = hole + n, *e2e = lengths + n, *work = e2e + 4 * m;
    size_t work_len = borzhanu_work_length(n, m);
    borzhanu_mesh mesh = {.n = n, .elements = elements, .elements_len = 4 * m, .v2e = v2e, .v2e_len = n, .e2e = e2e,
                          .b2e = b2e};
    if (refused(name, borzhanu_mesh_look(&mesh)))
        return;
    mesh.e2e_len = borzhanu_e2e_length(mesh.columns, m);
    uint64_t built = borzhanu_build(n, elements, 4 * m, v2e, n, e2e, mesh.e2e_len, b2e, n, work, work_len);
    if (refused(name, built))
        return;
    mesh.b2e_len = borzhanu_first(built);
    uint64_t holes = borzhanu_mesh_holes(&mesh, hole, n, lengths, n, work, work_len);
    if (refused(name, holes))
        return;
    uint32_t spare = 0;
    for (uint32_t v = 1; v <= n; v++)
        spare += v2e[v - 1] == 0;
    printf("  %u edges, %u on the border, openings %u", borzhanu_second(built), borzhanu_first(built),
           borzhanu_first(holes));
    if (spare != 0)
        printf(", spare vertices %u", spare);
    printf("\n");
}

static int read_file(const char *name) {
    size_t text_len;
    uint8_t *text = bytes_of(name, &text_len);
    if (text == NULL) {
        fprintf(stderr, "%s can't be read\n", name);
        return 0;
    }
    /* Without room for the list the call says how much it needs. */
    uint64_t asked = borzhanu_read_off(text, text_len, NULL, 0);
    size_t len = borzhanu_refusal(asked) == BORZHANU_OUTPUT_SHORT ? borzhanu_first(asked) : 0;
    uint32_t *elements = numbers(len);
    uint64_t returned = borzhanu_read_off(text, text_len, elements, len);
    if (!refused(name, returned)) {
        uint32_t n = borzhanu_first(returned), m = borzhanu_second(returned);
        printf("%s: %u vertices, %u faces\n", name, n, m);
        uint32_t *room = numbers(room_of_tables(n, m));
        describe(name, n, m, elements, room);
        free(room);
    }
    free(elements);
    free(text);
    return 1;
}

int main(int argc, char **argv) {
    int all_read = argc > 1;
    if (argc < 2)
        fprintf(stderr, "usage: read FILE..\n");
    for (int i = 1; i < argc; i++)
        all_read &= read_file(argv[i]);
    return all_read ? 0 : 1;
}
