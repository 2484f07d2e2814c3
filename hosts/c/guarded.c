#define _DEFAULT_SOURCE
#include "guarded.h"

#include <stdio.h>
#include <stdlib.h>
#include <sys/mman.h>
#include <unistd.h>

static void *closed_bytes(size_t bytes) {
    void *all = mmap(NULL, bytes, PROT_NONE, MAP_PRIVATE | MAP_ANONYMOUS | MAP_NORESERVE, -1, 0);
    if (all == MAP_FAILED) {
        perror("guarded memory");
        exit(2);
    }
    return all;
}

static void open_bytes(void *first, size_t bytes) {
    if (bytes != 0 && mprotect(first, bytes, PROT_READ | PROT_WRITE) != 0) {
        perror("guarded memory");
        exit(2);
    }
}

static size_t page_bytes(void) {
    return (size_t)sysconf(_SC_PAGESIZE);
}

struct guarded guarded_memory(size_t entries) {
    size_t page = page_bytes(), bytes = (entries * sizeof(uint32_t) + page - 1) / page * page;
    unsigned char *all = closed_bytes(bytes + 2 * page);
    open_bytes(all + page, bytes);
    return (struct guarded){all + page, bytes};
}

uint32_t *closed_memory(size_t entries) {
    return closed_bytes(entries * sizeof(uint32_t));
}

uint32_t *closed_but_for_a_page(size_t entries) {
    uint32_t *all = closed_memory(entries);
    open_bytes(all, page_bytes());
    return all;
}

static void fail_run(void) {
    perror("a run of one byte");
    exit(2);
}

const unsigned char *run_of_bytes(unsigned char byte, size_t bytes) {
    enum { STRETCH = 1 << 22 };
    FILE *file = tmpfile();
    if (file == NULL)
        fail_run();
    for (long i = 0; i < STRETCH; i++)
        putc(byte, file);
    if (fflush(file) != 0)
        fail_run();
    size_t stretches = bytes / STRETCH + 1;
    unsigned char *all = closed_bytes(stretches * STRETCH);
    for (size_t i = 0; i < stretches; i++)
        if (mmap(all + i * STRETCH, STRETCH, PROT_READ, MAP_SHARED | MAP_FIXED, fileno(file), 0) == MAP_FAILED)
            fail_run();
    fclose(file);
    return all;
}

unsigned char *placed_bytes(const struct guarded *memory, size_t bytes, enum placement placement) {
    if (bytes > memory->bytes) {
        fprintf(stderr, "guarded memory: no room for %zu bytes\n", bytes);
        exit(2);
    }
    if (placement == START_AT_GUARD)
        return bytes == 0 ? NULL : memory->first;
    return memory->first + memory->bytes - bytes;
}

uint32_t *placed(const struct guarded *memory, size_t len, enum placement placement) {
    return (uint32_t *)(void *)placed_bytes(memory, len * sizeof(uint32_t), placement);
}
