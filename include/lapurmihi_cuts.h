/*
 * What a power cut leaves of a container that is being made: calls for a program's own tests, beside those of lapurmihi.h.
 *
 * Each is a call that stores into an image, with one more argument, a budget of byte stores:
 *
 *     lapur_open_within     opens a session, as lapur_open does
 *     lapur_write_within    appends bytes to a task, as lapur_write does
 *     lapur_close_within    closes the session, as lapur_close does
 *
 * and of a pair lapur_pair_open_within, lapur_pair_write_within and lapur_pair_close_within, with a budget for each image.
 *
 * Of the call's stores into the image just the first `budget` are made, in the order that lapurmihi.h names, and what is then found there is
 * what a cut after that many stores leaves. A budget changes nothing else: tests, answer, record and table are those of the whole call, and
 * so is what is assumed of the memory. A refused call stores nothing. With a budget of all its stores, or of more, it is the whole call.
 *
 * A test makes a call with each budget from 0 to the number of its stores, each time over a copy of image, table and record as they were
 * before it, and then does with the image what its program does with a file after a cut. What a load gives of it stands below; that holds of
 * a session whose record, image and table no one but its own calls changed, and with a table of LAPUR_CELLS cells.
 *
 * What is proved. The library has lapur_open_within, lapur_pair_open_within and the four functions whose names end in _lent, and each of
 * them is proved; the other four are a few lines of C over these, which take a record in two parts as in lapurmihi.h. What a load gives of
 * what is found is proved of a single file.
 *
 * Link with liblapurmihi_cuts beside liblapurmihi, -llapurmihi_cuts -llapurmihi, both of one version. Where they are installed, the file
 * lapurmihi_cuts for pkg-config names both; in the repository `tools/build cuts` builds target/staticlib/liblapurmihi_cuts.a. It is a
 * second library so that the plain calls pay nothing: in one library with these the compiler would not see that a plain call has no budget,
 * and each would count its stores.
 */
#ifndef LAPURMIHI_CUTS_H
#define LAPURMIHI_CUTS_H

#include "lapurmihi_pair.h"

#ifdef __cplusplus
extern "C" {
#endif

/*
 * lapur_open, of whose stores into the image just the first `budget` are made: 0 into its first byte, then all from its second byte on, and
 * the s of the mark last, one store more than there are bytes before chunk 1 of task 1.
 *
 * Tests, table, record and answer are those of lapur_open, whatever the budget.
 * A load of what is found gives what it gave before where the budget is 0, LAPUR_NO_MARK where it is less than all the stores, and
 * LAPUR_NOT_CLOSED from there on.
 */
struct lapur_opened lapur_open_within(
    struct lapur_plan plan,
    const uint64_t *ranks, size_t ranks_length,
    const uint64_t *sizes, size_t sizes_length,
    const uint8_t *prefix, size_t prefix_length,
    uint8_t *image, size_t image_length,
    int64_t *table, size_t cells,
    uint64_t budget);

/* lapur_write_within, of a record in two parts. */
uint32_t lapur_write_within_lent(
    struct lapur_session_numbers numbers, uint64_t lists[LAPUR_LISTS],
    uint8_t *image, size_t image_length,
    int64_t *table, size_t cells,
    uint64_t task,
    const uint8_t *bytes, size_t length,
    uint64_t budget);

/*
 * lapur_write, of whose stores into the image just the first `budget` are made: the request's bytes, from the first to the last.
 *
 * Tests, table, record and answer are those of lapur_write, whatever the budget: the cell and the count are those of a request that was
 * stored whole, and the session goes on behind it.
 * A load of what is found gives LAPUR_NOT_CLOSED, whatever the budget.
 */
static inline uint32_t lapur_write_within(
    struct lapur_session *session,
    uint8_t *image, size_t image_length,
    int64_t *table, size_t cells,
    uint64_t task,
    const uint8_t *bytes, size_t length,
    uint64_t budget)
{
    return lapur_write_within_lent(
        session->numbers, lapur_session_lists(session), image, image_length, table, cells, task, bytes, length, budget);
}

/* lapur_close_within, of a record in two parts: it hands back the numbers, since only they change. */
struct lapur_closed_lent lapur_close_within_lent(
    struct lapur_session_numbers numbers, const uint64_t lists[LAPUR_LISTS],
    uint8_t *image, size_t image_length,
    const int64_t *table, size_t cells,
    uint64_t budget);

/*
 * lapur_close, of whose stores into the image just the first `budget` are made: META2, then the 4 bytes of maxchunks, then the 8 bytes of
 * start_of_varheader, together 8 n (1 + maxchunks) + 12.
 *
 * Tests, record and answer are those of lapur_close, whatever the budget: the record is marked closed, and the length is the whole
 * container's. A copy of the record that was made before can be closed again over what is found, with the same table, which gives what
 * lapur_close gives.
 * A load of what is found gives LAPUR_NOT_CLOSED until a byte of start_of_varheader is stored that is not 0, LAPUR_BAD_META2_PLACE until all
 * such bytes are, and then the complete container.
 */
static inline struct lapur_closed lapur_close_within(
    struct lapur_session *session,
    uint8_t *image, size_t image_length,
    const int64_t *table, size_t cells,
    uint64_t budget)
{
    struct lapur_closed_lent answer =
        lapur_close_within_lent(session->numbers, lapur_session_lists(session), image, image_length, table, cells, budget);
    struct lapur_closed closed = {answer.refusal, answer.length};
    session->numbers = answer.numbers;
    return closed;
}

/*
 * lapur_pair_open, of whose stores into each image just the first `budget0` and the first `budget1` are made.
 *
 * Tests, tables, records and answer are those of lapur_pair_open, whatever the budgets.
 */
struct lapur_pair_opened lapur_pair_open_within(
    struct lapur_plan plan0,
    const uint64_t *ranks0, size_t ranks0_length,
    const uint64_t *sizes0, size_t sizes0_length,
    const uint8_t *prefix0, size_t prefix0_length,
    uint8_t *image0, size_t image0_length,
    int64_t *table0, size_t cells0,
    struct lapur_plan plan1,
    const uint64_t *ranks1, size_t ranks1_length,
    const uint64_t *sizes1, size_t sizes1_length,
    const uint8_t *prefix1, size_t prefix1_length,
    uint8_t *image1, size_t image1_length,
    int64_t *table1, size_t cells1,
    uint64_t budget0, uint64_t budget1);

/* lapur_pair_write_within, of records in two parts. */
uint32_t lapur_pair_write_within_lent(
    struct lapur_session_numbers numbers0, uint64_t lists0[LAPUR_LISTS],
    uint8_t *image0, size_t image0_length,
    int64_t *table0, size_t cells0,
    struct lapur_session_numbers numbers1, uint64_t lists1[LAPUR_LISTS],
    uint8_t *image1, size_t image1_length,
    int64_t *table1, size_t cells1,
    uint64_t rank,
    const uint8_t *bytes, size_t length,
    uint64_t budget0, uint64_t budget1);

/*
 * lapur_pair_write, of whose stores into the image that has the rank just as many as that file's budget are made.
 *
 * Tests, tables, records and answer are those of lapur_pair_write, whatever the budgets.
 */
static inline uint32_t lapur_pair_write_within(
    struct lapur_session *session0,
    uint8_t *image0, size_t image0_length,
    int64_t *table0, size_t cells0,
    struct lapur_session *session1,
    uint8_t *image1, size_t image1_length,
    int64_t *table1, size_t cells1,
    uint64_t rank,
    const uint8_t *bytes, size_t length,
    uint64_t budget0, uint64_t budget1)
{
    return lapur_pair_write_within_lent(
        session0->numbers, lapur_session_lists(session0), image0, image0_length, table0, cells0,
        session1->numbers, lapur_session_lists(session1), image1, image1_length, table1, cells1, rank, bytes, length, budget0, budget1);
}

/* lapur_pair_close_within, of records in two parts: it hands back the numbers, since only they change. */
struct lapur_pair_closed_lent lapur_pair_close_within_lent(
    struct lapur_session_numbers numbers0, const uint64_t lists0[LAPUR_LISTS],
    uint8_t *image0, size_t image0_length,
    const int64_t *table0, size_t cells0,
    struct lapur_session_numbers numbers1, const uint64_t lists1[LAPUR_LISTS],
    uint8_t *image1, size_t image1_length,
    const int64_t *table1, size_t cells1,
    uint64_t budget0, uint64_t budget1);

/*
 * lapur_pair_close, of whose stores into each image just the first `budget0` and the first `budget1` are made: of file 0's META2, the mapping, maxchunks,
 * then start_of_varheader.
 *
 * Tests, records and answer are those of lapur_pair_close, whatever the budgets.
 */
static inline struct lapur_pair_closed lapur_pair_close_within(
    struct lapur_session *session0,
    uint8_t *image0, size_t image0_length,
    const int64_t *table0, size_t cells0,
    struct lapur_session *session1,
    uint8_t *image1, size_t image1_length,
    const int64_t *table1, size_t cells1,
    uint64_t budget0, uint64_t budget1)
{
    struct lapur_pair_closed_lent answer = lapur_pair_close_within_lent(
        session0->numbers, lapur_session_lists(session0), image0, image0_length, table0, cells0,
        session1->numbers, lapur_session_lists(session1), image1, image1_length, table1, cells1, budget0, budget1);
    struct lapur_pair_closed closed = {answer.refusal, answer.length0, answer.length1};
    session0->numbers = answer.numbers0;
    session1->numbers = answer.numbers1;
    return closed;
}

#ifdef __cplusplus
}
#endif

#endif
