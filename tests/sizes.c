/*
 * The answers that the library puts into memory are as long as the header's records: a call is made by the address that the platform hands
 * over for an answer of more than 16 bytes, over memory of one known byte, and the last field has to be stored and no byte behind it.
 */
#include <stdio.h>
#include <string.h>

#include "lapurmihi.h"

enum { KEPT = 0xA5, ROOM = 4096 };

/* The same functions, with the address of the answer as their first parameter, as the x86-64 ABI passes it. */
void raw_needs(void *answer, struct lapur_plan plan, const uint64_t *ranks, size_t ranks_length, const uint64_t *sizes,
    size_t sizes_length, const uint8_t *prefix, size_t prefix_length) __asm__("lapur_needs");
void raw_open(void *answer, struct lapur_plan plan, const uint64_t *ranks, size_t ranks_length, const uint64_t *sizes,
    size_t sizes_length, const uint8_t *prefix, size_t prefix_length, uint8_t *image, size_t image_length, int64_t *table,
    size_t cells) __asm__("lapur_open");
void raw_close(void *answer, struct lapur_session_numbers numbers, const uint64_t lists[LAPUR_LISTS], uint8_t *image,
    size_t image_length, const int64_t *table, size_t cells) __asm__("lapur_close_lent");
void raw_load(void *answer, const uint8_t *image, size_t image_length, int64_t *table, size_t cells) __asm__("lapur_load");
void raw_chunk(void *answer, struct lapur_loaded_numbers numbers, const uint64_t lists[LAPUR_LISTS], const uint8_t *image,
    size_t image_length, const int64_t *table, size_t cells, uint64_t task, uint64_t chunk) __asm__("lapur_chunk_lent");

static unsigned char memory[ROOM];
static int failed;

static void *fresh(void)
{
    memset(memory, KEPT, sizeof memory);
    return memory;
}

/* The last field is one of `width` bytes that end at `end`, and the record has `size` bytes. */
static void stored(const char *what, size_t end, size_t width, size_t size)
{
    size_t kept = 0, behind = 0;
    for (size_t at = end - width; at < end; at++)
        kept += memory[at] == KEPT;
    for (size_t at = size; at < ROOM; at++)
        behind += memory[at] != KEPT;
    if (kept == width || behind != 0) {
        fprintf(stderr, "%s: the library's record is not the header's, which has %zu bytes\n", what, size);
        failed = 1;
    }
}

#define STORED(record, field) stored(#record, offsetof(struct lapur_##record, field) + sizeof ((struct lapur_##record *)0)->field, \
    sizeof ((struct lapur_##record *)0)->field, sizeof(struct lapur_##record))

int main(void)
{
    static uint8_t image[8192];
    static int64_t table[2];
    const struct lapur_plan plan = {LAPUR_LITTLE, 0, 0, LAPUR_FORMAT_3, 512, 1};
    const uint64_t ranks[1] = {0}, sizes[1] = {10};
    const uint8_t none[1] = {0};
    raw_needs(fresh(), plan, ranks, 1, sizes, 1, none, 0);
    STORED(needed, cells);
    raw_open(fresh(), plan, ranks, 1, sizes, 1, none, 0, image, sizeof image, table, 2);
    STORED(opened, refusal);
    struct lapur_opened opened = lapur_open(plan, ranks, 1, sizes, 1, none, 0, image, sizeof image, table, 2);
    struct lapur_session session = opened.session;
    if (lapur_write(&session, image, sizeof image, table, 2, 1, none, 1) != 0)
        return 1;
    raw_close(fresh(), session.numbers, lapur_session_lists(&session), image, sizeof image, table, 2);
    STORED(closed_lent, length);
    raw_load(fresh(), image, sizeof image, table, 2);
    STORED(load_answer, fault);
    struct lapur_load_answer answer = lapur_load(image, sizeof image, table, 2);
    raw_chunk(fresh(), answer.loaded.numbers, lapur_loaded_lists(&answer.loaded), image, sizeof image, table, 2, 1, 1);
    STORED(part, length);
    if (lapur_version() != LAPUR_VERSION) {
        fprintf(stderr, "the library's version is %u, the header's %d\n", (unsigned)lapur_version(), LAPUR_VERSION);
        failed = 1;
    }
    if (!failed)
        printf("5 answers of version %s\n", LAPUR_VERSION_TEXT);
    return failed;
}
