/*
 * Opens, fills, closes, checks and reads one container in two physical files, over memory that the caller lends: a pair. It goes with lapurmihi.h, whose
 * words, records and rules are these; what stands here is what differs.
 *
 * Each file of a pair is laid out as a single file's container is, with its own byte order, blocksize, planned blocks and 1 to 64 tasks, and has its own
 * record, image and table. In META1 nfiles is 2, and filenumber is 0 or 1. The global ranks of both files' tasks are together the numbers from 0 up, each
 * once. After META2 of file 0 stands the mapping, 4 + 8 * ranks bytes: how many ranks there are, then for each rank from 0 up the number of its file and
 * its place among the tasks there, both counted from 0.
 *
 * Calls name a task by its global rank, counted from 0, wherever it lies. A parameter or a field whose name ends in 0 or 1 is of that file.
 *
 *     lapur_pair_needs     the bytes of both images and the cells of both tables that two plans ask for
 *     lapur_pair_open      stores META1 of both files and hands back both records
 *     lapur_pair_write     appends bytes to a rank's task, any number of times
 *     lapur_pair_close     stores META2 of both files and the mapping; the first `length0` and `length1` bytes are then the two files
 *
 *     lapur_pair_load      checks both images, fills both tables and hands back both records
 *     lapur_pair_total     the bytes of a rank's task
 *     lapur_pair_chunk     where, and in which of the two images, the bytes of one of its chunks lie
 *     lapur_pair_read      copies bytes of its whole stream
 *
 * A refused call changes nothing of either file. The buffers and the records of both files overlap neither one another nor the rest, and are never NULL.
 *
 * What is proved. The library has the functions that are only declared here, and each of them is proved. lapur_pair_write, lapur_pair_close,
 * lapur_pair_chunk, lapur_pair_total and lapur_pair_read are a few lines of C over the function of their name with _lent, which takes each record in two
 * parts as in lapurmihi.h.
 *
 * Link with liblapurmihi.
 */
#ifndef LAPURMIHI_PAIR_H
#define LAPURMIHI_PAIR_H

#include "lapurmihi.h"

#ifdef __cplusplus
extern "C" {
#endif

/*
 * The answers. In each, `refusal` is 0 or a number of enum lapur_refusal.
 */

/* What lapur_pair_needs answers. */
struct lapur_pair_needed {
    uint32_t refusal;
    uint64_t image0;                        /* the least bytes of the image, with the mapping's */
    uint64_t cells0;                        /* the least cells of the table */
    uint64_t image1;
    uint64_t cells1;
};

/* What lapur_pair_open answers. */
struct lapur_pair_opened {
    struct lapur_session session0;
    struct lapur_session session1;
    uint32_t refusal;
};

/* What lapur_pair_close answers. */
struct lapur_pair_closed {
    uint32_t refusal;
    uint64_t length0;                       /* the bytes of file 0, from its image's start to the mapping's end */
    uint64_t length1;                       /* the bytes of file 1 */
};

/* What lapur_pair_close_lent answers. */
struct lapur_pair_closed_lent {
    uint32_t refusal;
    struct lapur_session_numbers numbers0;  /* those of the records after the call */
    struct lapur_session_numbers numbers1;
    uint64_t length0;
    uint64_t length1;
};

/* What lapur_pair_load answers: `fault` says where it broke off, and `file` in which of the two, which is 0 where it was accepted. */
struct lapur_pair_loaded {
    struct lapur_loaded loaded0;
    struct lapur_loaded loaded1;
    uint32_t refusal;
    uint32_t file;
    struct lapur_fault fault;
};

/* What lapur_pair_chunk answers: the bytes are those of image0 or image1, as `file` says, from `start` up to, and without, `start + length`. */
struct lapur_pair_part {
    uint32_t refusal;
    uint32_t file;
    uint64_t start;
    uint64_t length;
};

/* The sizes that these records have in the library: a compiler that is told to lay them out otherwise stops here. */
#define LAPUR_SIZE(record, bytes) typedef char lapur_##record##_size[sizeof(struct lapur_##record) == (bytes) ? 1 : -1]
LAPUR_SIZE(pair_needed, 40);
LAPUR_SIZE(pair_opened, 3160);
LAPUR_SIZE(pair_closed, 24);
LAPUR_SIZE(pair_closed_lent, 104);
LAPUR_SIZE(pair_loaded, 3208);
LAPUR_SIZE(pair_part, 24);
#undef LAPUR_SIZE

/*
 * What an opening with these two plans needs, of file 0 with the room that the mapping takes. Each file's tests are those of lapur_needs; then the ranks of
 * both lists together have to be 0 to ranks0_length + ranks1_length - 1, each once, else it is refused with 8.
 *
 * Tests: 2, 4, 5, 6, 21, 8, 9, 20 (file 0), the same (file 1), 8 (the ranks of both).
 * Refused: all four lengths are 0.
 */
struct lapur_pair_needed lapur_pair_needs(
    struct lapur_plan plan0,
    const uint64_t *ranks0, size_t ranks0_length,
    const uint64_t *sizes0, size_t sizes0_length,
    const uint8_t *prefix0, size_t prefix0_length,
    struct lapur_plan plan1,
    const uint64_t *ranks1, size_t ranks1_length,
    const uint64_t *sizes1, size_t sizes1_length,
    const uint8_t *prefix1, size_t prefix1_length);

/*
 * Opens both sessions. Images and tables are at least as long as lapur_pair_needs says for the same plans.
 *
 * Tests: 2, 4, 5, 6, 21, 8, 9, 20 (file 0), the same (file 1), 8 (the ranks of both), 18 (file 0), 18 (file 1).
 * Changes: each image and each table as lapur_open does.
 * Stores: into each image as lapur_open does, in its order.
 * Hands back: both records. Refused: two records of zeros, marked closed.
 */
struct lapur_pair_opened lapur_pair_open(
    struct lapur_plan plan0,
    const uint64_t *ranks0, size_t ranks0_length,
    const uint64_t *sizes0, size_t sizes0_length,
    const uint8_t *prefix0, size_t prefix0_length,
    uint8_t *image0, size_t image0_length,
    int64_t *table0, size_t cells0,
    struct lapur_plan plan1,
    const uint64_t *ranks1, size_t ranks1_length,
    const uint64_t *sizes1, size_t sizes1_length,
    const uint8_t *prefix1, size_t prefix1_length,
    uint8_t *image1, size_t image1_length,
    int64_t *table1, size_t cells1);

/* lapur_pair_write, of records in two parts. */
uint32_t lapur_pair_write_lent(
    struct lapur_session_numbers numbers0, uint64_t lists0[LAPUR_LISTS],
    uint8_t *image0, size_t image0_length,
    int64_t *table0, size_t cells0,
    struct lapur_session_numbers numbers1, uint64_t lists1[LAPUR_LISTS],
    uint8_t *image1, size_t image1_length,
    int64_t *table1, size_t cells1,
    uint64_t rank,
    const uint8_t *bytes, size_t length);

/*
 * Writes bytes to the task that carries a rank, as lapur_write does in the file that has it; the other file is left as it is.
 *
 * Tests: 17 (file 0), 17 (file 1), 18, 19 (file 0), 18, 19 (file 1), 14, then an empty request is accepted, 15, 16.
 * Whether a rank is lacking is judged with 17 of file 1; the mapping's room counts in 18 of file 0; 14 is given where there is no such rank.
 * Changes: bytes of one image, a cell of its table and a count of its record. Refused: nothing, and both sessions go on.
 * Stores, in this order: the bytes, from the first to the last.
 * Hands back: the refusal number or 0.
 */
static inline uint32_t lapur_pair_write(
    struct lapur_session *session0,
    uint8_t *image0, size_t image0_length,
    int64_t *table0, size_t cells0,
    struct lapur_session *session1,
    uint8_t *image1, size_t image1_length,
    int64_t *table1, size_t cells1,
    uint64_t rank,
    const uint8_t *bytes, size_t length)
{
    return lapur_pair_write_lent(
        session0->numbers, lapur_session_lists(session0), image0, image0_length, table0, cells0,
        session1->numbers, lapur_session_lists(session1), image1, image1_length, table1, cells1, rank, bytes, length);
}

/* lapur_pair_close, of records in two parts: it hands back the numbers, since only they change. */
struct lapur_pair_closed_lent lapur_pair_close_lent(
    struct lapur_session_numbers numbers0, const uint64_t lists0[LAPUR_LISTS],
    uint8_t *image0, size_t image0_length,
    const int64_t *table0, size_t cells0,
    struct lapur_session_numbers numbers1, const uint64_t lists1[LAPUR_LISTS],
    uint8_t *image1, size_t image1_length,
    const int64_t *table1, size_t cells1);

/*
 * Closes both sessions. Both files belong together from then on: neither is a container by itself.
 *
 * Tests: 17 (file 0), 17 (file 1), 18, 19 (file 0), 18, 19 (file 1).
 * Changes: each image as lapur_close does, and in file 0 also the mapping, right after META2; both records are marked closed.
 * Stores: into each image as lapur_close does, in its order; in file 0's the mapping comes between META2 and maxchunks.
 * Hands back: the length of each file. Refused: both lengths are 0.
 */
static inline struct lapur_pair_closed lapur_pair_close(
    struct lapur_session *session0,
    uint8_t *image0, size_t image0_length,
    const int64_t *table0, size_t cells0,
    struct lapur_session *session1,
    uint8_t *image1, size_t image1_length,
    const int64_t *table1, size_t cells1)
{
    struct lapur_pair_closed_lent answer = lapur_pair_close_lent(
        session0->numbers, lapur_session_lists(session0), image0, image0_length, table0, cells0,
        session1->numbers, lapur_session_lists(session1), image1, image1_length, table1, cells1);
    struct lapur_pair_closed closed = {answer.refusal, answer.length0, answer.length1};
    session0->numbers = answer.numbers0;
    session1->numbers = answer.numbers1;
    return closed;
}

/*
 * Checks both files of a pair; bytes after the end of each are not looked at.
 *
 * Tests: 1, 2, 3 (1076 bytes), 4, 5, 6, 7, 3 (all of META1), 8, 9, 10, 11, 12, 18 (table), 13 (file 0), the same (file 1), 25.
 * In 7 nfiles has to be 2, and filenumber the file's own. 25 judges the mapping: mapping_size, whether all of it fits in file 0's image, then each
 * entry from rank 0 up, its file number, its task and the rank that this task carries.
 * Changes: both tables as lapur_load does.
 * Hands back: both records. Refused: two records of zeros, marked closed, and where the load broke off: in 25 the place is where the mapping starts for
 * mapping_size, the image's length where it does not fit, and where the entry starts, in file 0.
 */
struct lapur_pair_loaded lapur_pair_load(
    const uint8_t *image0, size_t image0_length,
    int64_t *table0, size_t cells0,
    const uint8_t *image1, size_t image1_length,
    int64_t *table1, size_t cells1);

/* lapur_pair_chunk, of records in two parts. */
struct lapur_pair_part lapur_pair_chunk_lent(
    struct lapur_loaded_numbers numbers0, const uint64_t lists0[LAPUR_LISTS],
    const uint8_t *image0, size_t image0_length,
    const int64_t *table0, size_t cells0,
    struct lapur_loaded_numbers numbers1, const uint64_t lists1[LAPUR_LISTS],
    const uint8_t *image1, size_t image1_length,
    const int64_t *table1, size_t cells1,
    uint64_t rank, uint64_t chunk);

/*
 * Finds the written bytes of one chunk of a rank's task; nothing is copied. The part always lies within the image that it names.
 *
 * Tests: 17 (file 0), 17 (file 1), 18, 19 (file 0), 18, 19 (file 1), 14, 22.
 * Which task carries a rank is what the records' ranks say; the stored mapping was judged when loading, and does not count in 18.
 * Refused: file 0's empty part, with file, start and length 0.
 */
static inline struct lapur_pair_part lapur_pair_chunk(
    const struct lapur_loaded *loaded0,
    const uint8_t *image0, size_t image0_length,
    const int64_t *table0, size_t cells0,
    const struct lapur_loaded *loaded1,
    const uint8_t *image1, size_t image1_length,
    const int64_t *table1, size_t cells1,
    uint64_t rank, uint64_t chunk)
{
    return lapur_pair_chunk_lent(
        loaded0->numbers, lapur_loaded_lists(loaded0), image0, image0_length, table0, cells0,
        loaded1->numbers, lapur_loaded_lists(loaded1), image1, image1_length, table1, cells1, rank, chunk);
}

/* lapur_pair_total, of records in two parts. */
struct lapur_byte_count lapur_pair_total_lent(
    struct lapur_loaded_numbers numbers0, const uint64_t lists0[LAPUR_LISTS],
    const uint8_t *image0, size_t image0_length,
    const int64_t *table0, size_t cells0,
    struct lapur_loaded_numbers numbers1, const uint64_t lists1[LAPUR_LISTS],
    const uint8_t *image1, size_t image1_length,
    const int64_t *table1, size_t cells1,
    uint64_t rank);

/*
 * Counts the bytes of a rank's task, in all its chunks.
 *
 * Tests: 17 (file 0), 17 (file 1), 18, 19 (file 0), 18, 19 (file 1), 14.
 * Refused: the count is 0.
 */
static inline struct lapur_byte_count lapur_pair_total(
    const struct lapur_loaded *loaded0,
    const uint8_t *image0, size_t image0_length,
    const int64_t *table0, size_t cells0,
    const struct lapur_loaded *loaded1,
    const uint8_t *image1, size_t image1_length,
    const int64_t *table1, size_t cells1,
    uint64_t rank)
{
    return lapur_pair_total_lent(
        loaded0->numbers, lapur_loaded_lists(loaded0), image0, image0_length, table0, cells0,
        loaded1->numbers, lapur_loaded_lists(loaded1), image1, image1_length, table1, cells1, rank);
}

/* lapur_pair_read, of records in two parts. */
struct lapur_byte_count lapur_pair_read_lent(
    struct lapur_loaded_numbers numbers0, const uint64_t lists0[LAPUR_LISTS],
    const uint8_t *image0, size_t image0_length,
    const int64_t *table0, size_t cells0,
    struct lapur_loaded_numbers numbers1, const uint64_t lists1[LAPUR_LISTS],
    const uint8_t *image1, size_t image1_length,
    const int64_t *table1, size_t cells1,
    uint64_t rank, uint64_t place,
    uint8_t *out, size_t out_length);

/*
 * Copies bytes of a rank's task, across its chunks, from a place in its whole stream, as lapur_read does in the file that has it.
 *
 * Tests: 17 (file 0), 17 (file 1), 18, 19 (file 0), 18, 19 (file 1), 14, 23.
 * Changes: the bytes of the output that it copied, and none after them.
 * Hands back: the number of bytes copied. Refused: 0.
 */
static inline struct lapur_byte_count lapur_pair_read(
    const struct lapur_loaded *loaded0,
    const uint8_t *image0, size_t image0_length,
    const int64_t *table0, size_t cells0,
    const struct lapur_loaded *loaded1,
    const uint8_t *image1, size_t image1_length,
    const int64_t *table1, size_t cells1,
    uint64_t rank, uint64_t place,
    uint8_t *out, size_t out_length)
{
    return lapur_pair_read_lent(
        loaded0->numbers, lapur_loaded_lists(loaded0), image0, image0_length, table0, cells0,
        loaded1->numbers, lapur_loaded_lists(loaded1), image1, image1_length, table1, cells1, rank, place, out, out_length);
}

#ifdef __cplusplus
}
#endif

#endif
