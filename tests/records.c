/*
 * Holds the headers' inline functions to the whole record that they are given: with any one of its numbers or entries spoilt a call is refused
 * with 17 and changes nothing, and what is not judged comes through a session as it was, in both byte orders and both formats. What
 * lapur_chunk_size answers is held to what a write takes, and to its numbers at the bounds, and where a load breaks off to what was damaged. The
 * calls within a budget of stores are held to the whole calls, and what they leave in the image to what a load says of it. It is C, and C++
 * too; tests/example runs it as both.
 */
#include <stdio.h>
#include <stdlib.h>
#include <string.h>

#include "lapurmihi_cuts.h"

enum { TASKS = 3, K = 2, CELLS = TASKS * K, BYTES = 16384 };

static const uint64_t ranks[TASKS] = {5, 0, 9}, sizes[TASKS] = {100, 600, 512};
static const uint8_t line[] = "22:10 to Irun, platform 1\n";

/* What is written: so many lines to each task, of which so many bytes stand in its first chunk. Task 1 has one more than its chunk holds. */
enum { LINE = sizeof line - 1, FIT = 512 / LINE, MOST = FIT + 1 };
static const uint64_t lines[TASKS] = {MOST, 0, 1}, first[TASKS] = {FIT * LINE, 0, LINE}, begun[TASKS] = {2, 0, 1};

/* A session or a load with all its memory. */
struct session { struct lapur_session record; uint8_t image[BYTES]; int64_t table[CELLS]; };
struct load { struct lapur_loaded record; uint8_t image[BYTES]; int64_t table[CELLS]; };

static void hold(int holds, const char *what, int which)
{
    if (!holds) {
        fprintf(stderr, "records: %s, case %d\n", what, which);
        exit(EXIT_FAILURE);
    }
}

static int same_lists(const uint64_t *one, const uint64_t *other)
{
    return memcmp(one, other, LAPUR_LISTS * sizeof *one) == 0;
}

/* Field by field: the bytes between the fields of a record may be any. */
static int same_but_image(struct session *one, struct session *other)
{
    return memcmp(&one->record.numbers, &other->record.numbers, sizeof one->record.numbers) == 0
        && same_lists(lapur_session_lists(&one->record), lapur_session_lists(&other->record))
        && memcmp(one->table, other->table, sizeof one->table) == 0;
}

static int same_session(struct session *one, struct session *other)
{
    return same_but_image(one, other) && memcmp(one->image, other->image, sizeof one->image) == 0;
}

static uint32_t write_to(struct session *s, uint64_t task, size_t length)
{
    return lapur_write(&s->record, s->image, BYTES, s->table, CELLS, task, line, length);
}

static uint32_t write_within(struct session *s, uint64_t task, size_t length, uint64_t budget)
{
    return lapur_write_within(&s->record, s->image, BYTES, s->table, CELLS, task, line, length, budget);
}

static struct lapur_closed closed(struct session *s)
{
    return lapur_close(&s->record, s->image, BYTES, s->table, CELLS);
}

static struct lapur_closed closed_within(struct session *s, uint64_t budget)
{
    return lapur_close_within(&s->record, s->image, BYTES, s->table, CELLS, budget);
}

/* Spoils one thing that test 17 judges, the first of each list and the last; says whether there is such a case. */
static int spoil_session(struct lapur_session *session, int which)
{
    switch (which) {
    case 0: session->numbers.order = 2; return 1;
    case 1: session->numbers.blocksize = 768; return 1;
    case 2: session->numbers.n = 0; return 1;
    case 3: session->numbers.n = LAPUR_TASKS + 1; return 1;
    case 4: session->numbers.planned = LAPUR_BLOCKS + 1; return 1;
    case 5: session->numbers.closed = 1; return 1;
    case 6: session->ranks[0] = UINT64_MAX; return 1;
    case 7: session->ranks[TASKS - 1] = session->ranks[0]; return 1;
    case 8: session->sizes[0] = 0; return 1;
    case 9: session->sizes[TASKS - 1] = UINT64_MAX; return 1;
    case 10: session->counts[0] = K + 1; return 1;
    case 11: session->counts[TASKS - 1] = K + 1; return 1;
    case 12: session->numbers.format = 0; return 1;
    case 13: session->numbers.format = 5; return 1;
    case 14: session->numbers.format = LAPUR_FORMAT_4; session->counts[1] = 0; return 1;
    case 15: session->numbers.files = 0; return 1;
    case 16: session->numbers.files = 2; return 1;
    case 17: session->numbers.file = 1; return 1;
    default: return 0;
    }
}

static int spoil_loaded(struct lapur_loaded *loaded, int which)
{
    switch (which) {
    case 0: loaded->numbers.order = 2; return 1;
    case 1: loaded->numbers.blocksize = 768; return 1;
    case 2: loaded->numbers.n = 0; return 1;
    case 3: loaded->numbers.n = LAPUR_TASKS + 1; return 1;
    case 4: loaded->numbers.maxchunks++; return 1;
    case 5: loaded->numbers.closed = 1; return 1;
    case 6: loaded->ranks[0] = UINT64_MAX; return 1;
    case 7: loaded->ranks[TASKS - 1] = loaded->ranks[0]; return 1;
    case 8: loaded->sizes[0] = 0; return 1;
    case 9: loaded->sizes[TASKS - 1] = UINT64_MAX; return 1;
    case 10: loaded->counts[0] = K + 1; return 1;
    case 11: loaded->counts[TASKS - 1] = K + 1; return 1;
    case 12: loaded->numbers.format = 0; return 1;
    case 13: loaded->numbers.format = 5; return 1;
    case 14: loaded->numbers.format = LAPUR_FORMAT_4; loaded->counts[1] = 0; return 1;
    case 15: loaded->numbers.files = 0; return 1;
    case 16: loaded->numbers.files = 2; return 1;
    case 17: loaded->numbers.file = 1; return 1;
    default: return 0;
    }
}

/* The chunks in use of a task, counted from 0, that has begun so many: in format 4 at least one. */
static uint64_t used(uint32_t format, uint64_t chunks)
{
    return format == LAPUR_FORMAT_4 && chunks == 0 ? 1 : chunks;
}

/* Opens a session and writes to it. */
static void fill(struct session *s, uint32_t order, uint32_t format)
{
    struct lapur_plan plan = {order, -3, 77, format, 512, K};
    struct lapur_needed needed = lapur_needs(plan, ranks, TASKS, sizes, TASKS, line, LINE);
    hold(needed.refusal == 0 && needed.image <= BYTES && needed.cells == CELLS, "what the plan needs", (int)order);
    memset(s, 0, sizeof *s);
    struct lapur_opened opened = lapur_open(plan, ranks, TASKS, sizes, TASKS, line, LINE, s->image, BYTES, s->table, CELLS);
    hold(opened.refusal == 0, "the opening", (int)order);
    s->record = opened.session;
    const struct lapur_session_numbers numbers = {order, -3, 77, format, 512, TASKS, 1, 0, K, 0};
    uint64_t lists[LAPUR_LISTS] = {0};
    memcpy(lists, ranks, sizeof ranks);
    memcpy(lists + LAPUR_TASKS, sizes, sizeof sizes);
    for (int task = 0; task < TASKS; task++) {
        lists[2 * LAPUR_TASKS + task] = used(format, 0);
        hold(s->table[task] == (format == LAPUR_FORMAT_4 ? 0 : -1) && s->table[TASKS + task] == -1, "the cells of a session just opened", task);
    }
    hold(memcmp(&s->record.numbers, &numbers, sizeof numbers) == 0, "the numbers of a session just opened", (int)order);
    hold(same_lists(lapur_session_lists(&s->record), lists), "the lists of a session just opened", (int)order);

    for (uint64_t task = 1; task <= TASKS; task++)
        for (uint64_t i = 0; i < lines[task - 1]; i++)
            hold(write_to(s, task, LINE) == 0, "a write", (int)task);
    for (int task = 0; task < TASKS; task++)
        lists[2 * LAPUR_TASKS + task] = used(format, begun[task]);
    hold(memcmp(&s->record.numbers, &numbers, sizeof numbers) == 0, "the numbers of a session after writes", (int)order);
    hold(same_lists(lapur_session_lists(&s->record), lists), "the lists of a session after writes", (int)order);
}

/* Each thing spoilt: 17, and nothing has moved. */
static int refused_session(const struct session *good)
{
    static struct session spoilt, before;
    int which;
    for (which = 0; spoilt = *good, spoil_session(&spoilt.record, which); which++) {
        before = spoilt;
        hold(write_to(&spoilt, 1, 1) == LAPUR_BAD_RECORD, "a write over a spoilt record", which);
        struct lapur_closed answer = closed(&spoilt);
        hold(answer.refusal == LAPUR_BAD_RECORD && answer.length == 0, "a close of a spoilt record", which);
        hold(write_within(&spoilt, 1, 1, 1) == LAPUR_BAD_RECORD, "a write within a budget over a spoilt record", which);
        answer = closed_within(&spoilt, UINT64_MAX);
        hold(answer.refusal == LAPUR_BAD_RECORD && answer.length == 0, "a close within a budget of a spoilt record", which);
        hold(same_session(&spoilt, &before), "what refused calls left", which);
    }
    return which;
}

/* What is not judged is any, and stays; then the close marks the record. */
static void close_it(struct session *s)
{
    static struct session before;
    s->record.numbers.version = INT32_MIN;
    s->record.numbers.patch = -1;
    s->record.ranks[TASKS] = s->record.sizes[TASKS] = s->record.counts[LAPUR_TASKS - 1] = UINT64_MAX;
    before = *s;
    hold(write_to(s, 2, 0) == 0 && same_session(s, &before), "an empty write", 0);
    struct lapur_closed answer = closed(s);
    hold(answer.refusal == 0 && answer.length > 0 && answer.length <= BYTES, "a close", 0);
    before.record.numbers.closed = 1;
    memcpy(before.image, s->image, sizeof before.image);
    hold(same_session(s, &before), "what a close left", 0);
    before = *s;
    hold(closed(s).refusal == LAPUR_BAD_RECORD && write_to(s, 1, 1) == LAPUR_BAD_RECORD, "calls of a closed session", 0);
    hold(same_session(s, &before), "what calls of a closed session left", 0);
}

static int refused_reads(const struct load *good)
{
    static struct load spoilt;
    int which;
    for (which = 0; spoilt = *good, spoil_loaded(&spoilt.record, which); which++) {
        uint8_t out[4] = {7, 7, 7, 7};
        const struct lapur_loaded *record = &spoilt.record;
        struct lapur_part part = lapur_chunk(record, spoilt.image, BYTES, spoilt.table, CELLS, 1, 1);
        struct lapur_byte_count total = lapur_total(record, spoilt.image, BYTES, spoilt.table, CELLS, 1);
        struct lapur_byte_count copied = lapur_read(record, spoilt.image, BYTES, spoilt.table, CELLS, 1, 0, out, sizeof out);
        hold(part.refusal == LAPUR_BAD_RECORD && part.start == 0 && part.length == 0, "a chunk of a spoilt record", which);
        hold(total.refusal == LAPUR_BAD_RECORD && total.bytes == 0, "a total of a spoilt record", which);
        hold(copied.refusal == LAPUR_BAD_RECORD && copied.bytes == 0, "a read of a spoilt record", which);
        hold(out[0] == 7 && out[3] == 7, "the output of a refused read", which);
    }
    return which;
}

/* The closed container has what was written, whatever is put where the record is not judged. */
static void read_it(struct load *l, const struct session *s)
{
    memcpy(l->image, s->image, sizeof l->image);
    struct lapur_load_answer answer = lapur_load(l->image, BYTES, l->table, CELLS);
    const struct lapur_fault none = {0, 0, 0, 0, 0, 0, 0};
    hold(answer.refusal == 0 && memcmp(&answer.fault, &none, offsetof(struct lapur_fault, chunk) + sizeof none.chunk) == 0, "the load", 0);
    l->record = answer.loaded;
    const uint32_t format = s->record.numbers.format;
    const struct lapur_loaded_numbers numbers = {s->record.numbers.order, -3, 77, format, 512, TASKS, 1, 0, K, 0};
    hold(memcmp(&l->record.numbers, &numbers, sizeof numbers) == 0, "the numbers of a load", 0);
    l->record.numbers.version = 0;
    l->record.numbers.patch = INT32_MAX;
    l->record.ranks[TASKS] = l->record.sizes[TASKS] = l->record.counts[LAPUR_TASKS - 1] = UINT64_MAX;
    for (uint64_t task = 1; task <= TASKS; task++) {
        uint8_t out[MOST * LINE + 1];
        const struct lapur_loaded *record = &l->record;
        struct lapur_byte_count total = lapur_total(record, l->image, BYTES, l->table, CELLS, task);
        struct lapur_byte_count copied = lapur_read(record, l->image, BYTES, l->table, CELLS, task, 0, out, sizeof out);
        struct lapur_part part = lapur_chunk(record, l->image, BYTES, l->table, CELLS, task, 1);
        hold(total.refusal == 0 && total.bytes == lines[task - 1] * LINE, "a total", (int)task);
        hold(copied.refusal == 0 && copied.bytes == total.bytes, "a read", (int)task);
        hold(part.refusal == (uint32_t)(used(format, begun[task - 1]) == 0 ? LAPUR_NO_CHUNK : 0), "a chunk", (int)task);
        hold(part.length == first[task - 1], "the length of a chunk", (int)task);
        hold(memcmp(l->image + part.start, out, (size_t)part.length) == 0, "the bytes of a chunk", (int)task);
        for (uint64_t i = 0; i < copied.bytes; i++)
            hold(out[i] == line[i % LINE], "the bytes of a read", (int)task);
    }
}

/* Where the numbers of the container stand. */
enum { RANKS = 1076, SIZES = RANKS + 8 * TASKS, MAXCHUNKS = SIZES + 8 * TASKS, START = MAXCHUNKS + 4, META1 = START + 8 };
enum { META2 = 1536 + K * (512 + 1024 + 512), VALUES = META2 + 8 * TASKS, END = VALUES + 8 * CELLS };

static void put(uint8_t *image, uint32_t order, size_t at, int64_t number)
{
    size_t width = at < RANKS || at == MAXCHUNKS ? 4 : 8;
    for (size_t i = 0; i < width; i++)
        image[at + (order == LAPUR_BIG ? width - 1 - i : i)] = (uint8_t)((uint64_t)number >> 8 * i);
}

/* A load answers with this refusal and this fault, all of it, and the field has a name. */
static void breaks(const uint8_t *image, size_t length, size_t cells, uint32_t refusal, struct lapur_fault wanted, int which)
{
    int64_t table[CELLS];
    struct lapur_load_answer answer = lapur_load(image, length, table, cells);
    struct lapur_fault found = answer.fault;
    hold(answer.refusal == refusal && answer.loaded.numbers.closed == 1, "a refused load", which);
    hold(found.place == wanted.place && found.field == wanted.field, "where a load broke off", which);
    hold(found.says == wanted.says && found.least == wanted.least && found.most == wanted.most, "what a field says and may say", which);
    hold(found.task == wanted.task && found.chunk == wanted.chunk, "whose field it is", which);
    hold(strcmp(lapur_field_name(found.field), lapur_field_name(0)) != 0, "the name of a field", which);
}

/* A closed container of which one number is spoilt. */
static int broken(const struct session *closed)
{
    static const struct { size_t at; int64_t number; uint32_t refusal; struct lapur_fault fault; } cases[] = {
        {0, 7, LAPUR_NO_MARK, {0, 0, 0, 0, LAPUR_FIELD_MARK, 0, 0}},
        {4, 2, LAPUR_NO_ORDER, {4, 0, 0, 0, LAPUR_FIELD_ORDER, 0, 0}},
        {16, 5, LAPUR_BAD_FORMAT, {16, 5, 3, 4, LAPUR_FIELD_FORMAT, 0, 0}},
        {20, -512, LAPUR_BAD_BLOCKSIZE, {20, -512, 512, 4194304, LAPUR_FIELD_BLOCKSIZE, 0, 0}},
        {24, 65, LAPUR_BAD_TASKS, {24, 65, 1, LAPUR_TASKS, LAPUR_FIELD_TASKS, 0, 0}},
        {28, 2, LAPUR_BAD_FILES, {28, 2, 1, 1, LAPUR_FIELD_FILES, 0, 0}},
        {32, -1, LAPUR_BAD_FILES, {32, -1, 0, 0, LAPUR_FIELD_FILE_NUMBER, 0, 0}},
        {RANKS + 8, INT64_MIN, LAPUR_BAD_RANK, {RANKS + 8, INT64_MIN, 0, INT32_MAX, LAPUR_FIELD_RANK, 2, 0}},
        {RANKS + 16, 5, LAPUR_BAD_RANK, {RANKS + 16, 5, 0, INT32_MAX, LAPUR_FIELD_RANK, 3, 0}},
        {SIZES, 0, LAPUR_BAD_SIZE, {SIZES, 0, 1, 1073741824, LAPUR_FIELD_SIZE, 1, 0}},
        {START, 0, LAPUR_NOT_CLOSED, {START, 0, 1, INT64_MAX, LAPUR_FIELD_START, 0, 0}},
        {MAXCHUNKS, 33, LAPUR_BAD_MAXCHUNKS, {MAXCHUNKS, 33, 0, LAPUR_BLOCKS, LAPUR_FIELD_MAXCHUNKS, 0, 0}},
        {START, -1, LAPUR_BAD_META2_PLACE, {START, -1, META2, META2, LAPUR_FIELD_START, 0, 0}},
        {META2, 1, LAPUR_BAD_META2, {MAXCHUNKS, K, 1, 1, LAPUR_FIELD_MAXCHUNKS, 0, 0}},
        {VALUES + 8 * TASKS, 513, LAPUR_BAD_META2, {VALUES + 8 * TASKS, 513, 0, 512, LAPUR_FIELD_VALUE, 1, 2}},
        {END - 8, 0, LAPUR_BAD_META2, {END - 8, 0, -1, -1, LAPUR_FIELD_VALUE, TASKS, K}},
    };
    static uint8_t image[BYTES];
    int which, count = sizeof cases / sizeof *cases;
    for (which = 0; which < count; which++) {
        memcpy(image, closed->image, BYTES);
        put(image, closed->record.numbers.order, cases[which].at, cases[which].number);
        breaks(image, BYTES, CELLS, cases[which].refusal, cases[which].fault, which);
    }
    const struct lapur_fault counted = {META2 + 8, K + 1, closed->record.numbers.format == LAPUR_FORMAT_4, K, LAPUR_FIELD_COUNT, 2, 0};
    memcpy(image, closed->image, BYTES);
    put(image, closed->record.numbers.order, META2 + 8, K + 1);
    breaks(image, BYTES, CELLS, LAPUR_BAD_META2, counted, count);
    return count + 1;
}

/* The same container, of which too little is lent. */
static int cut_short(const struct session *closed)
{
    static const struct { size_t needed; uint32_t refusal; } cuts[] = {
        {RANKS, LAPUR_SHORT_META1}, {META1, LAPUR_SHORT_META1}, {END, LAPUR_BAD_META2_PLACE},
    };
    int which, count = sizeof cuts / sizeof *cuts;
    for (which = 0; which < count; which++) {
        const int64_t needed = (int64_t)cuts[which].needed;
        const struct lapur_fault cut = {cuts[which].needed - 1, needed - 1, needed, needed, LAPUR_FIELD_IMAGE, 0, 0};
        breaks(closed->image, cuts[which].needed - 1, CELLS, cuts[which].refusal, cut, which);
    }
    const struct lapur_fault table = {0, CELLS - 1, CELLS, CELLS, LAPUR_FIELD_TABLE, 0, 0};
    breaks(closed->image, BYTES, CELLS - 1, LAPUR_TOO_SHORT, table, count);
    return count + 1;
}

/* The stores of an opening, of a write and of a close of the session that is filled here. */
enum { OPENING = 1536 + 1, WRITE = LINE, CLOSING = 8 * TASKS * (1 + K) + 12 };

/* What a load of all that a power cut leaves answers. */
static uint32_t found(const struct session *s)
{
    int64_t table[CELLS];
    return lapur_load(s->image, BYTES, table, CELLS).refusal;
}

/* An opening over nines that is cut after each of its stores. */
static int cut_openings(struct lapur_plan plan)
{
    static struct session before, whole, cut;
    memset(&before, 9, sizeof before);
    whole = before;
    whole.record = lapur_open(plan, ranks, TASKS, sizes, TASKS, line, LINE, whole.image, BYTES, whole.table, CELLS).session;
    for (int budget = 0; budget <= OPENING + 1; budget++) {
        cut = before;
        struct lapur_opened opened =
            lapur_open_within(plan, ranks, TASKS, sizes, TASKS, line, LINE, cut.image, BYTES, cut.table, CELLS, (uint64_t)budget);
        cut.record = opened.session;
        hold(opened.refusal == 0 && same_but_image(&cut, &whole), "the answer to a cut opening", budget);
        hold(found(&cut) == (uint32_t)(budget < OPENING ? LAPUR_NO_MARK : LAPUR_NOT_CLOSED), "what is found of a cut opening", budget);
        size_t end = budget < 1 ? 1 : budget < OPENING ? (size_t)budget : OPENING - 1;
        hold(cut.image[0] == (budget < 1 ? 9 : budget < OPENING ? 0 : 's'), "the mark of a cut opening", budget);
        hold(memcmp(cut.image + 1, whole.image + 1, end - 1) == 0, "what a cut opening stored", budget);
        hold(memcmp(cut.image + end, before.image + end, BYTES - end) == 0, "what a cut opening did not store", budget);
    }
    return OPENING + 2;
}

/* A write to an open session that is cut after each of its stores; the line goes to chunk 1 of task 2. */
static int cut_writes(const struct session *open)
{
    static struct session whole, cut;
    const size_t place = 1536 + 512;
    whole = *open;
    hold(write_to(&whole, 2, WRITE) == 0, "a write that is not cut", 0);
    for (int budget = 0; budget <= WRITE + 1; budget++) {
        size_t end = place + (size_t)(budget < WRITE ? budget : WRITE);
        cut = *open;
        hold(write_within(&cut, 2, WRITE, (uint64_t)budget) == 0 && same_but_image(&cut, &whole), "the answer to a cut write", budget);
        hold(found(&cut) == LAPUR_NOT_CLOSED, "what is found of a cut write", budget);
        hold(memcmp(cut.image, whole.image, end) == 0, "what a cut write stored", budget);
        hold(memcmp(cut.image + end, open->image + end, BYTES - end) == 0, "what a cut write did not store", budget);
    }
    return WRITE + 2;
}

/* A close that is cut after each of its stores, and then made again over what is found. */
static int cut_closes(const struct session *open)
{
    static struct session whole, cut;
    whole = *open;
    const struct lapur_closed wanted = closed(&whole);
    for (int budget = 0; budget <= CLOSING + 1; budget++) {
        cut = *open;
        struct lapur_closed answer = closed_within(&cut, (uint64_t)budget);
        hold(answer.refusal == 0 && answer.length == wanted.length && same_but_image(&cut, &whole), "the answer to a cut close", budget);
        uint32_t refusal = found(&cut);
        hold(refusal == 0 || refusal == LAPUR_NOT_CLOSED || refusal == LAPUR_BAD_META2_PLACE, "what is found of a cut close", budget);
        hold((refusal == 0) == same_session(&cut, &whole), "a container that is found", budget);
        cut.record = open->record;
        answer = closed(&cut);
        hold(answer.length == wanted.length && same_session(&cut, &whole), "a cut close, made again", budget);
    }
    hold(closed_within(&whole, UINT64_MAX).refusal == LAPUR_BAD_RECORD, "a close of a closed session", 0);
    return CLOSING + 2;
}

/* 4 is judged right after 2, before 5. */
static int formats(void)
{
    static const struct { uint32_t order, format, blocksize, refusal; } cases[] = {
        {2, 5, 768, LAPUR_NO_ORDER}, {LAPUR_BIG, 0, 768, LAPUR_BAD_FORMAT}, {LAPUR_BIG, 2, 768, LAPUR_BAD_FORMAT}, {LAPUR_BIG, 5, 768, LAPUR_BAD_FORMAT},
        {LAPUR_BIG, UINT32_MAX, 768, LAPUR_BAD_FORMAT}, {LAPUR_BIG, LAPUR_FORMAT_4, 768, LAPUR_BAD_BLOCKSIZE}, {LAPUR_BIG, LAPUR_FORMAT_4, 512, 0},
        {LAPUR_LITTLE, LAPUR_FORMAT_3, 512, 0},
    };
    static struct session s;
    int which, count = sizeof cases / sizeof *cases;
    for (which = 0; which < count; which++) {
        const struct lapur_plan plan = {cases[which].order, 0, 0, cases[which].format, cases[which].blocksize, K};
        hold(lapur_needs(plan, ranks, TASKS, sizes, TASKS, line, LINE).refusal == cases[which].refusal, "a format, asked for", which);
        hold(lapur_open(plan, ranks, TASKS, sizes, TASKS, line, LINE, s.image, BYTES, s.table, CELLS).refusal == cases[which].refusal,
            "a format, opened", which);
    }
    return count;
}

/* As many bytes as lapur_chunk_size counts fill the one chunk, to its last byte, and a request of one byte more is refused at any moment. */
static int chunk_sizes(void)
{
    static const struct { uint64_t size; uint32_t blocksize; uint64_t holds; } cases[] = {
        {1, 512, 512}, {500, 512, 512}, {511, 512, 512}, {512, 512, 512}, {513, 512, 1024}, {600, 512, 1024}, {1024, 512, 1024},
        {513, 4096, 4096}, {4096, 4096, 4096}, {4097, 4096, 8192},
    };
    static const uint64_t rank = 0;
    static uint8_t bytes[8192 + 1];
    static struct session s;
    int which, count = sizeof cases / sizeof *cases;
    for (which = 0; which < count; which++) {
        const struct lapur_plan plan = {LAPUR_LITTLE, 0, 0, (uint32_t)(which % 2 ? LAPUR_FORMAT_4 : LAPUR_FORMAT_3), cases[which].blocksize, 1};
        uint64_t holds = cases[which].holds;
        struct lapur_byte_count counted = lapur_chunk_size(cases[which].size, cases[which].blocksize);
        hold(counted.refusal == 0 && counted.bytes == holds, "what a chunk holds", which);
        struct lapur_opened opened = lapur_open(plan, &rank, 1, &cases[which].size, 1, bytes, 0, s.image, BYTES, s.table, CELLS);
        hold(opened.refusal == 0, "an opening for one chunk", which);
        const struct { uint64_t length; uint32_t refusal; } requests[] = {
            {holds + 1, LAPUR_TOO_LONG}, {holds - 1, 0}, {2, LAPUR_NO_CHUNK_LEFT}, {1, 0}, {1, LAPUR_NO_CHUNK_LEFT}, {holds + 1, LAPUR_TOO_LONG},
        };
        for (size_t i = 0; i < sizeof requests / sizeof *requests; i++)
            hold(lapur_write(&opened.session, s.image, BYTES, s.table, CELLS, 1, bytes, (size_t)requests[i].length) == requests[i].refusal,
                "a request for one chunk", which);
    }
    return count;
}

/* Chunk sizes for which no session is opened here: the blocksize is judged first, and what is refused has 0 bytes. */
static int bounds(void)
{
    static const struct { uint64_t size; uint32_t blocksize, refusal; uint64_t bytes; } cases[] = {
        {1, 4194304, 0, 4194304}, {1073741823, 4194304, 0, 1073741824}, {1073741824, 512, 0, 1073741824},
        {1, 0, LAPUR_BAD_BLOCKSIZE, 0}, {1, 256, LAPUR_BAD_BLOCKSIZE, 0}, {1, 511, LAPUR_BAD_BLOCKSIZE, 0}, {1, 513, LAPUR_BAD_BLOCKSIZE, 0},
        {1, 768, LAPUR_BAD_BLOCKSIZE, 0}, {1, 8388608, LAPUR_BAD_BLOCKSIZE, 0}, {1, UINT32_MAX, LAPUR_BAD_BLOCKSIZE, 0},
        {0, 512, LAPUR_BAD_SIZE, 0}, {0, 4194304, LAPUR_BAD_SIZE, 0}, {1073741825, 512, LAPUR_BAD_SIZE, 0},
        {UINT64_MAX, 4194304, LAPUR_BAD_SIZE, 0}, {0, 0, LAPUR_BAD_BLOCKSIZE, 0}, {UINT64_MAX, UINT32_MAX, LAPUR_BAD_BLOCKSIZE, 0},
    };
    int which, count = sizeof cases / sizeof *cases;
    for (which = 0; which < count; which++) {
        struct lapur_byte_count counted = lapur_chunk_size(cases[which].size, cases[which].blocksize);
        hold(counted.refusal == cases[which].refusal, "the answer for a chunk size at a bound", which);
        hold(counted.bytes == cases[which].bytes, "a chunk size at a bound", which);
    }
    return count;
}

int main(void)
{
    static struct session session;
    static struct load load;
    int spoilt = 0, faults = 0, cuts = 0;
    for (uint32_t order = LAPUR_LITTLE; order <= LAPUR_BIG; order++)
        for (uint32_t format = LAPUR_FORMAT_3; format <= LAPUR_FORMAT_4; format++) {
            fill(&session, order, format);
            spoilt += refused_session(&session);
            const struct lapur_plan plan = {order, -3, 77, format, 512, K};
            cuts += cut_openings(plan) + cut_writes(&session) + cut_closes(&session);
            close_it(&session);
            read_it(&load, &session);
            faults += broken(&session) + cut_short(&session);
            spoilt += refused_reads(&load);
        }
    printf("%d spoilt records, %d faults of loads, %d power cuts, %d formats at opening, %d chunk sizes and %d at bounds\n", spoilt, faults,
        cuts, formats(), chunk_sizes(), bounds());
    return 0;
}
