/*
 * Holds the inline functions of lapurmihi_pair.h, and those for pairs of lapurmihi_cuts.h, to a small pair worked through by hand, and to the whole
 * records that they are given: with one number of either record spoilt a call is refused with 17 and changes nothing. It is C, and C++ too;
 * tests/example runs it as both.
 */
#include <stdio.h>
#include <stdlib.h>
#include <string.h>

#include "lapurmihi_cuts.h"

/* File 0 has ranks 2 and 0, requested sizes 500 and 600, and 3 blocks; file 1 has rank 1, size 20, and 2 blocks. */
enum { BYTES0 = 6236, BYTES1 = 2584, CELLS0 = 6, CELLS1 = 2, LENGTH0 = 4684, LENGTH1 = 2584, MAPPING = 4656 };

static const struct lapur_plan plan0 = {LAPUR_LITTLE, 1, 7, LAPUR_FORMAT_3, 512, 3}, plan1 = {LAPUR_BIG, 1, 7, LAPUR_FORMAT_3, 512, 2};
static const uint64_t ranks0[] = {2, 0}, sizes0[] = {500, 600}, ranks1[] = {1}, sizes1[] = {20};
static const uint8_t none[1] = {0}, sevens[1024] = {7, 7, 7, 7, 7, 7, 7};

struct pair {
    struct lapur_session session0, session1;
    uint8_t image0[BYTES0], image1[BYTES1];
    int64_t table0[CELLS0], table1[CELLS1];
};

static void hold(int holds, const char *what, int which)
{
    if (!holds) {
        fprintf(stderr, "pair: %s, case %d\n", what, which);
        exit(EXIT_FAILURE);
    }
}

static int same(struct pair *one, struct pair *other)
{
    return memcmp(&one->session0.numbers, &other->session0.numbers, sizeof one->session0.numbers) == 0
        && memcmp(&one->session1.numbers, &other->session1.numbers, sizeof one->session1.numbers) == 0
        && memcmp(lapur_session_lists(&one->session0), lapur_session_lists(&other->session0), LAPUR_LISTS * sizeof(uint64_t)) == 0
        && memcmp(lapur_session_lists(&one->session1), lapur_session_lists(&other->session1), LAPUR_LISTS * sizeof(uint64_t)) == 0
        && memcmp(one->image0, other->image0, BYTES0) == 0 && memcmp(one->image1, other->image1, BYTES1) == 0
        && memcmp(one->table0, other->table0, sizeof one->table0) == 0 && memcmp(one->table1, other->table1, sizeof one->table1) == 0;
}

static uint32_t opened(struct pair *p, uint64_t budget0, uint64_t budget1)
{
    struct lapur_pair_opened answer;
    memset(p, 9, sizeof *p);
    answer = budget0 == UINT64_MAX
        ? lapur_pair_open(
            plan0, ranks0, 2, sizes0, 2, none, 0, p->image0, BYTES0, p->table0, CELLS0,
            plan1, ranks1, 1, sizes1, 1, none, 0, p->image1, BYTES1, p->table1, CELLS1)
        : lapur_pair_open_within(
            plan0, ranks0, 2, sizes0, 2, none, 0, p->image0, BYTES0, p->table0, CELLS0,
            plan1, ranks1, 1, sizes1, 1, none, 0, p->image1, BYTES1, p->table1, CELLS1, budget0, budget1);
    p->session0 = answer.session0;
    p->session1 = answer.session1;
    return answer.refusal;
}

static uint32_t written(struct pair *p, uint64_t rank, size_t length)
{
    return lapur_pair_write(
        &p->session0, p->image0, BYTES0, p->table0, CELLS0, &p->session1, p->image1, BYTES1, p->table1, CELLS1, rank, sevens, length);
}

static struct lapur_pair_closed closed(struct pair *p)
{
    return lapur_pair_close(&p->session0, p->image0, BYTES0, p->table0, CELLS0, &p->session1, p->image1, BYTES1, p->table1, CELLS1);
}

/* Spoils one thing that test 17 judges in either record or in both together; says whether there is such a case. */
static int spoil(struct pair *p, int which)
{
    switch (which) {
    case 0: p->session0.numbers.files = 1; return 1;
    case 1: p->session1.numbers.file = 0; return 1;
    case 2: p->session0.numbers.closed = 1; return 1;
    case 3: p->session1.numbers.closed = 1; return 1;
    case 4: p->session0.sizes[1] = 0; return 1;
    case 5: p->session1.counts[0] = 3; return 1;
    case 6: p->session1.ranks[0] = 2; return 1; /* a rank that both files have */
    case 7: p->session1.ranks[0] = 3; return 1; /* rank 1 is lacking */
    case 8: p->session0.numbers.planned = 33; return 1;
    default: return 0;
    }
}

static void refused_whole(struct pair *good)
{
    int which;
    for (which = 0;; which++) {
        struct pair spoilt = *good, before;
        struct lapur_pair_closed answer;
        if (!spoil(&spoilt, which))
            return;
        before = spoilt;
        hold(written(&spoilt, 0, 1) == LAPUR_BAD_RECORD && same(&spoilt, &before), "a write to a spoilt record", which);
        answer = closed(&spoilt);
        hold(answer.refusal == LAPUR_BAD_RECORD && answer.length0 == 0 && answer.length1 == 0, "a close of a spoilt record", which);
        hold(same(&spoilt, &before), "what a refused close leaves", which);
    }
}

/* Within budgets: of the mapping's 28 bytes, which follow META2's 48, so many are there. */
static void cut(const struct pair *before)
{
    int stores;
    for (stores = 0; stores <= 28; stores++) {
        struct pair p = *before;
        struct lapur_pair_closed answer = lapur_pair_close_within(
            &p.session0, p.image0, BYTES0, p.table0, CELLS0, &p.session1, p.image1, BYTES1, p.table1, CELLS1, 48 + (uint64_t)stores, 0);
        hold(answer.refusal == 0 && answer.length0 == LENGTH0 && answer.length1 == LENGTH1, "a close that is cut", stores);
        hold(p.image0[MAPPING] == (stores > 0 ? 3 : 9) && p.image0[MAPPING + 27] == (stores > 27 ? 0 : 9), "what it leaves", stores);
        hold(memcmp(p.image1, before->image1, BYTES1) == 0, "what it leaves of file 1", stores);
    }
}

static void read_back(const struct pair *p)
{
    static const uint8_t mapping[28] = {3, 0, 0, 0, 0, 0, 0, 0, 1, 0, 0, 0, 1, 0, 0, 0, 0, 0, 0, 0, 0, 0, 0, 0, 0, 0, 0, 0};
    static int64_t table0[LAPUR_CELLS], table1[LAPUR_CELLS];
    struct lapur_pair_loaded a = lapur_pair_load(p->image0, LENGTH0, table0, LAPUR_CELLS, p->image1, LENGTH1, table1, LAPUR_CELLS);
    const struct lapur_loaded *l0 = &a.loaded0, *l1 = &a.loaded1;
    struct lapur_pair_part part;
    struct lapur_byte_count count;
    uint8_t out[600];

    hold(a.refusal == 0 && a.file == 0 && a.fault.field == 0, "an accepted load", 0);
    hold(memcmp(p->image0 + MAPPING, mapping, sizeof mapping) == 0, "the mapping", 0);
    part = lapur_pair_chunk(l0, p->image0, LENGTH0, table0, LAPUR_CELLS, l1, p->image1, LENGTH1, table1, LAPUR_CELLS, 1, 2);
    hold(part.refusal == 0 && part.file == 1 && part.start == 2048 && part.length == 1, "a chunk of file 1", 0);
    part = lapur_pair_chunk(l0, p->image0, LENGTH0, table0, LAPUR_CELLS, l1, p->image1, LENGTH1, table1, LAPUR_CELLS, 0, 1);
    hold(part.refusal == 0 && part.file == 0 && part.start == 2048 && part.length == 1024, "a chunk of file 0", 0);
    part = lapur_pair_chunk(l0, p->image0, LENGTH0, table0, LAPUR_CELLS, l1, p->image1, LENGTH1, table1, LAPUR_CELLS, 1, 3);
    hold(part.refusal == LAPUR_NO_CHUNK && part.file == 0 && part.start == 0 && part.length == 0, "no such chunk", 0);
    count = lapur_pair_total(l0, p->image0, LENGTH0, table0, LAPUR_CELLS, l1, p->image1, LENGTH1, table1, LAPUR_CELLS, 2);
    hold(count.refusal == 0 && count.bytes == 513, "a total", 0);
    count = lapur_pair_total(l0, p->image0, LENGTH0, table0, LAPUR_CELLS, l1, p->image1, LENGTH1, table1, LAPUR_CELLS, 3);
    hold(count.refusal == LAPUR_NO_TASK && count.bytes == 0, "the total of no rank", 0);
    count = lapur_pair_read(l0, p->image0, LENGTH0, table0, LAPUR_CELLS, l1, p->image1, LENGTH1, table1, LAPUR_CELLS, 1, 512, out, sizeof out);
    hold(count.refusal == 0 && count.bytes == 1 && out[0] == 7, "a read", 0);
    a.loaded1.numbers.file = 0;
    count = lapur_pair_read(l0, p->image0, LENGTH0, table0, LAPUR_CELLS, l1, p->image1, LENGTH1, table1, LAPUR_CELLS, 1, 512, out, sizeof out);
    hold(count.refusal == LAPUR_BAD_RECORD && count.bytes == 0, "a read of a record of another file", 0);
}

static void broken(const struct pair *p)
{
    static int64_t table0[LAPUR_CELLS], table1[LAPUR_CELLS];
    struct pair damaged = *p;
    struct lapur_pair_loaded a;
    damaged.image0[MAPPING + 4 + 8] = 0; /* rank 1 is said to be in file 0, whose task 0 carries 2 */
    a = lapur_pair_load(damaged.image0, LENGTH0, table0, LAPUR_CELLS, p->image1, LENGTH1, table1, LAPUR_CELLS);
    hold(a.refusal == LAPUR_BAD_MAPPING && a.file == 0 && a.fault.place == MAPPING + 12, "a broken entry", 0);
    hold(a.fault.field == LAPUR_FIELD_ENTRY_RANK && a.fault.task == 2 && a.fault.says == 2 && a.fault.least == 1, "what it says", 0);
    hold(a.loaded0.numbers.closed == 1 && a.loaded1.numbers.closed == 1 && a.loaded0.numbers.n == 0, "both records of a refused load", 0);
    a = lapur_pair_load(p->image0, LENGTH0, table0, LAPUR_CELLS, p->image0, LENGTH0, table1, LAPUR_CELLS);
    hold(a.refusal == LAPUR_BAD_FILES && a.file == 1 && a.fault.place == 32, "file 0 in the place of file 1", 0);
}

int main(void)
{
    static struct pair p, cut_short;
    struct lapur_pair_closed answer;
    struct lapur_pair_needed needed = lapur_pair_needs(plan0, ranks0, 2, sizes0, 2, none, 0, plan1, ranks1, 1, sizes1, 1, none, 0);

    hold(needed.refusal == 0 && needed.image0 == BYTES0 && needed.cells0 == CELLS0 && needed.image1 == BYTES1 && needed.cells1 == CELLS1, "needs", 0);
    needed = lapur_pair_needs(plan0, ranks0, 2, sizes0, 2, none, 0, plan1, ranks0, 1, sizes1, 1, none, 0);
    hold(needed.refusal == LAPUR_BAD_RANK && needed.image0 == 0, "a rank that both files have", 0);
    hold(opened(&cut_short, 0, 1) == 0 && cut_short.image0[0] == 9 && cut_short.image1[0] == 0 && cut_short.image1[1] == 9, "an opening that is cut", 0);
    hold(opened(&p, UINT64_MAX, UINT64_MAX) == 0 && memcmp(p.image0, "sion", 4) == 0 && memcmp(p.image1, "sion", 4) == 0, "an opening", 0);
    memset(p.image0 + 1536, 9, BYTES0 - 1536);
    hold(written(&p, 2, 500) == 0 && written(&p, 1, 512) == 0 && written(&p, 0, 1024) == 0, "writes", 0);
    hold(written(&p, 2, 13) == 0 && written(&p, 1, 1) == 0, "writes to second chunks", 0);
    hold(written(&p, 3, 0) == LAPUR_NO_TASK && written(&p, 1, 512) == LAPUR_NO_CHUNK_LEFT, "refused writes", 0);
    hold(lapur_pair_write_within(&p.session0, p.image0, BYTES0, p.table0, CELLS0, &p.session1, p.image1, BYTES1, p.table1, CELLS1, 1, sevens, 0, 0, 0) == 0,
        "an empty write within budgets", 0);
    refused_whole(&p);
    cut(&p);
    answer = closed(&p);
    hold(answer.refusal == 0 && answer.length0 == LENGTH0 && answer.length1 == LENGTH1, "a close", 0);
    hold(p.session0.numbers.closed == 1 && p.session1.numbers.closed == 1, "both records after a close", 0);
    read_back(&p);
    broken(&p);
    puts("pair: the worked pair, spoilt records and cuts are as they should be");
    return 0;
}
