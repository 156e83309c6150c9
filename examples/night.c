/*
 * A night at the railway: three stations write their timetable lines into one container, which goes to a file and is read again.
 *
 *     gcc -std=c99 -Iinclude -o target/night examples/night.c target/staticlib/liblapurmihi.a
 *     target/night night.sion
 *     target/night --show night.sion
 *
 * The second only reads, any container of any size.
 */
#include <inttypes.h>
#include <stdio.h>
#include <stdlib.h>
#include <string.h>

#include "lapurmihi.h"

enum { STATIONS = 3 };

/* The plan: its numbers, each station's rank, and the bytes that it requests for a chunk; rounded up to the blocksize, each chunk holds 512. */
static const struct lapur_plan plan = {.order = LAPUR_BIG, .version = 1, .patch = 7, .format = LAPUR_FORMAT_3, .blocksize = 512, .planned = 5};
static const uint64_t ranks[STATIONS] = {40, 7, 12};
static const uint64_t sizes[STATIONS] = {500, 48, 96};
static const uint8_t prefix[] = "railway/night";

/* A slow train: 150 bytes. Three of them fit in a chunk as one request, and four do not. */
#define SLOW(time) time " to Bilbao, platform 1, calls at " \
    "Lasarte, Usurbil, Orio, Zarautz, Getaria, Zumaia, Deba, Mendaro, Elgoibar, Eibar, Ermua, Durango, Lemoa, Bilbao\n"

static const struct { uint64_t task; const char *line; } timetable[] = {
    {1, "22:10 to Irun, platform 1\n"},
    {2, "22:24 from Zumaia, platform 2\n"},
    {1, "22:41 to Hendaia, platform 3\n"},
    {3, "23:05 goods, through\n"},
    {1, SLOW("05:18") SLOW("05:48") SLOW("06:18") SLOW("06:48")},
    {1, SLOW("05:18") SLOW("05:48") SLOW("06:18")},
    {1, SLOW("06:48")},
    {2, "23:18 to Bilbao, platform 1\n"},
    {3, "00:30 track 2 closed until 04:00\n"},
    {1, "07:02 to Irun, platform 1\n"},
};

static void fail(const char *what)
{
    perror(what);
    exit(EXIT_FAILURE);
}

static void check(const char *call, uint32_t refusal)
{
    if (refusal != 0) {
        fprintf(stderr, "%s: refused with %" PRIu32 ", %s\n", call, refusal, lapur_sentence(refusal));
        exit(EXIT_FAILURE);
    }
}

static void save(const char *name)
{
    struct lapur_needed needed = lapur_needs(plan, ranks, STATIONS, sizes, STATIONS, prefix, sizeof prefix - 1);
    check("lapur_needs", needed.refusal);
    size_t length = (size_t)needed.image, cells = (size_t)needed.cells;
    uint8_t *image = calloc(length, sizeof *image); /* cleared: the unused room of the chunks goes to the file too */
    int64_t *table = malloc(cells * sizeof *table);
    if (image == NULL || table == NULL)
        fail("memory");

    struct lapur_opened opened =
        lapur_open(plan, ranks, STATIONS, sizes, STATIONS, prefix, sizeof prefix - 1, image, length, table, cells);
    check("lapur_open", opened.refusal);
    printf("opened with %zu bytes and %zu cells\n", length, cells);

    struct lapur_session session = opened.session;
    for (size_t i = 0; i < sizeof timetable / sizeof *timetable; i++) {
        const char *line = timetable[i].line;
        uint64_t task = timetable[i].task;
        struct lapur_byte_count holds = lapur_chunk_size(sizes[task - 1], plan.blocksize);
        check("lapur_chunk_size", holds.refusal);
        uint32_t refusal = lapur_write(&session, image, length, table, cells, task, (const uint8_t *)line, strlen(line));
        if (refusal == LAPUR_TOO_LONG) /* nothing has changed, and the session goes on */
            printf("%zu bytes for a chunk of %" PRIu64 ": refused with %" PRIu32 ", %s\n", strlen(line), holds.bytes, refusal,
                lapur_sentence(refusal));
        else
            check("lapur_write", refusal);
    }

    struct lapur_closed closed = lapur_close(&session, image, length, table, cells);
    check("lapur_close", closed.refusal);
    printf("closed with %" PRIu64 " bytes\n", closed.length);

    FILE *file = fopen(name, "wb");
    if (file == NULL || fwrite(image, 1, (size_t)closed.length, file) != closed.length || fclose(file) != 0)
        fail(name);
    free(table);
    free(image);
}

/* A file's bytes, in memory of just their length: a container may be of any size. */
static uint8_t *whole(const char *name, size_t *length)
{
    FILE *file = fopen(name, "rb");
    if (file == NULL || fseek(file, 0, SEEK_END) != 0)
        fail(name);
    long end = ftell(file);
    if (end < 0 || fseek(file, 0, SEEK_SET) != 0)
        fail(name);
    *length = (size_t)end;
    uint8_t *bytes = malloc(*length + 1); /* one more, since no memory at all may be NULL */
    if (bytes == NULL)
        fail("memory");
    if (fread(bytes, 1, *length, file) != *length || fclose(file) != 0)
        fail(name);
    return bytes;
}

static void show(const char *name)
{
    static int64_t table[LAPUR_CELLS];
    size_t length;
    uint8_t *image = whole(name, &length);

    struct lapur_load_answer answer = lapur_load(image, length, table, LAPUR_CELLS);
    if (answer.refusal != 0) /* xxd -s PLACE -l 8 shows the field */
        fprintf(stderr, "at byte %" PRIu64 ": %s says %" PRId64 "\n", answer.fault.place, lapur_field_name(answer.fault.field), answer.fault.says);
    check("lapur_load", answer.refusal);
    const struct lapur_loaded *loaded = &answer.loaded;
    for (uint32_t task = 1; task <= loaded->numbers.n; task++) {
        struct lapur_byte_count total = lapur_total(loaded, image, length, table, LAPUR_CELLS, task);
        check("lapur_total", total.refusal);
        printf("\nrank %" PRIu64 ", %" PRIu64 " bytes\n", loaded->ranks[task - 1], total.bytes);
        for (uint64_t chunk = 1; chunk <= loaded->counts[task - 1]; chunk++) {
            struct lapur_part part = lapur_chunk(loaded, image, length, table, LAPUR_CELLS, task, chunk);
            check("lapur_chunk", part.refusal);
            printf("chunk %" PRIu64 ", %" PRIu64 " bytes from %" PRIu64 " on:\n", chunk, part.length, part.start);
            fwrite(image + part.start, 1, (size_t)part.length, stdout);
        }
    }

    printf("\nthe whole stream of task 1:\n");
    uint8_t out[50];
    struct lapur_byte_count copied = {0, 1};
    for (uint64_t place = 0; copied.bytes > 0; place += copied.bytes) {
        copied = lapur_read(loaded, image, length, table, LAPUR_CELLS, 1, place, out, sizeof out);
        check("lapur_read", copied.refusal);
        fwrite(out, 1, (size_t)copied.bytes, stdout);
    }
    free(image);
}

int main(int count, char **arguments)
{
    int reads = count == 3 && strcmp(arguments[1], "--show") == 0;
    if (count != 2 && !reads) {
        fprintf(stderr, "usage: night FILE, night --show FILE\n");
        return EXIT_FAILURE;
    }
    if (!reads)
        save(arguments[1]);
    show(arguments[count - 1]);
    if (fflush(stdout) != 0 || ferror(stdout))
        fail("output");
    return EXIT_SUCCESS;
}
