/*
 * Opens, fills, closes, checks and reads one container in the SIONlib file format, over memory that the caller lends.
 *
 * A container holds the bytes of 1 to 64 tasks. Each task has a rank and a requested size of its own, and its bytes stand in chunks: in
 * the image lie chunk 1 of every task, then chunk 2 of every task, and so on, behind a first metadata block, META1, and before a second,
 * META2. Tasks and chunks are counted from 1; offsets in the image and places in a task's stream are counted from 0.
 *
 * The requested size is what the plan says and what META1 stores, 1 to 1,073,741,824 bytes. The chunk size is what a chunk of the task
 * holds: the requested size, rounded up to a multiple of the blocksize. lapur_chunk_size gives it. A chunk may be filled to its last
 * byte: nothing lies between it and the next chunk.
 *
 * A session makes a container:
 *
 *     lapur_needs     the bytes of the image and the cells of the table that a plan asks for
 *     lapur_open      stores META1 and hands back the record
 *     lapur_write     appends bytes to a task, any number of times
 *     lapur_close     stores META2; the first `length` bytes of the image are then the container
 *
 * A load judges a container, whoever made it, and lets it be read:
 *
 *     lapur_load      checks the image, fills the table and hands back the record
 *     lapur_total     the bytes of a task
 *     lapur_chunk     where in the image the bytes of one chunk lie
 *     lapur_read      copies bytes of a task's whole stream
 *     lapur_length    the bytes of the container, without what follows it in the image
 *     lapur_prefix    where in the image its filename prefix lies
 *
 * A container in two physical files, a pair, has calls of its own, in lapurmihi_pair.h.
 *
 * Answers. Every call is accepted, with the number 0, or refused with the number of the first of its tests that fails. A refused call
 * changes nothing: no byte of the image or of an output, no cell of the table, nothing of a lent record. A refused load also says where it
 * broke off: the offset of the first offending field, what it says and what it may say. An accepted load says that the container's
 * structure is whole, not that its bytes are the ones that were sent: the format has no checksum, so a changed byte in a chunk, the
 * padding, the three version numbers, the flags, the prefix, a rank, a requested size or a written length may pass. Send a checksum such
 * as sha256sum's beside the file.
 *
 * What may come in. Any values at all: records, images, tables and numbers are tested by each call, and nothing has to hold beforehand.
 * Only these things about memory are assumed and not tested:
 *
 *   - A buffer is a pointer and its length, in elements. The pointer is aligned and valid for that length, for writing where it is not
 *     const. It is never NULL, not for an empty buffer either: with the length 0, hand over the address of any variable of the type.
 *   - A pointer to a record points to one.
 *   - The buffers lent to one call overlap neither one another nor the record.
 *
 * Memory. All of it is the caller's. The library allocates nothing and keeps nothing between calls, so a record is plain numbers that may
 * be copied, and calls on different memory may run at the same time. An image or a table may be longer than it needs to be: what follows
 * is not looked at and not changed. Bytes of the image that no call stores, such as the unused room of a chunk, stay what they were, and
 * they are part of the container: a container that leaves the caller's hands wants an image that was cleared first.
 *
 * Power cuts. A call stores into the image byte by byte, in the order that its comment names. Where the stores of a session's calls, and no
 * others, reach a drive in that order and the power goes after any of them, a load of all that is found, with a table that is long enough,
 * gives
 *
 *     before an opening's first store    what it gave before
 *     while the opening runs             LAPUR_NO_MARK
 *     during the session                 LAPUR_NOT_CLOSED
 *     while closing                      LAPUR_NOT_CLOSED, LAPUR_BAD_META2_PLACE or the complete container
 *
 * An image that is memory, to be written to a file later or mapped from one, reaches the drive in no such order by itself: who wants it has
 * to write and sync step by step. For a program's own tests, lapurmihi_cuts.h has calls that leave in the image what a cut leaves.
 *
 * What is proved. The library has the functions that are only declared here, and each of them is proved: lapur_version,
 * lapur_chunk_size, lapur_needs, lapur_open, lapur_load, and those whose names end in _lent. lapur_write, lapur_close, lapur_chunk,
 * lapur_total, lapur_read, lapur_length and lapur_prefix are a few lines of C over the function of their name with _lent;
 * lapur_sentence, lapur_field_name, lapur_session_lists and lapur_loaded_lists are C alone.
 *
 * Link with liblapurmihi: `tools/install` puts the library, this header and a file for pkg-config where compilers find them, and
 * `tools/library` builds target/staticlib/liblapurmihi.a in the repository.
 */
#ifndef LAPURMIHI_H
#define LAPURMIHI_H

#include <stddef.h>
#include <stdint.h>

#ifdef __cplusplus
extern "C" {
#endif

/* The version of this header: 10,000 times its first number, 100 times its second, and its third. */
#define LAPUR_VERSION 500
#define LAPUR_VERSION_TEXT "0.5.0"

/* The most tasks of a container, and the entries that a record has for them. */
#define LAPUR_TASKS 64

/* The most planned blocks, and so the most chunks of a task. */
#define LAPUR_BLOCKS 32

/* The cells of a table that is long enough for every container. */
#define LAPUR_CELLS (LAPUR_TASKS * LAPUR_BLOCKS)

/* The entries of a record's three lists. */
#define LAPUR_LISTS (3 * LAPUR_TASKS)

/* The byte order of a container's numbers. */
enum lapur_order {
    LAPUR_LITTLE = 0,
    LAPUR_BIG = 1
};

/* A container's fileformat_version: in 4 a task that wrote nothing has one chunk of 0 bytes, in 3 a session gives it none and a load takes either. */
enum lapur_format {
    LAPUR_FORMAT_3 = 3,
    LAPUR_FORMAT_4 = 4
};

/* The refusal numbers, each with what holds where it is given and all earlier tests passed. */
enum lapur_refusal {
    /* the image is under 4 bytes, or does not begin with sion */
    LAPUR_NO_MARK = 1,
    /* the image is under 8 bytes, or the order number is 1 in neither byte order; at opening, the order is neither 0 nor 1 */
    LAPUR_NO_ORDER = 2,
    /* the image is under 1076 bytes; later, under 1088 + 16 n bytes */
    LAPUR_SHORT_META1 = 3,
    /* fileformat_version is neither 3 nor 4 */
    LAPUR_BAD_FORMAT = 4,
    /* blocksize is no power of two from 512 to 4,194,304 */
    LAPUR_BAD_BLOCKSIZE = 5,
    /* ntasks is not from 1 to 64; at opening also, the lists of ranks and sizes are not equally long */
    LAPUR_BAD_TASKS = 6,
    /* nfiles or filenumber is not that of the file meant: 1 and 0, and of a pair 2 and 0 or 1 */
    LAPUR_BAD_FILES = 7,
    /* a rank is not from 0 to 2,147,483,647, or comes twice; opening a pair, its ranks are not 0, 1 and so on */
    LAPUR_BAD_RANK = 8,
    /* a requested size is not from 1 to 1,073,741,824 */
    LAPUR_BAD_SIZE = 9,
    /* start_of_varheader is 0: the container was never closed */
    LAPUR_NOT_CLOSED = 10,
    /* maxchunks is not from 0 to 32 */
    LAPUR_BAD_MAXCHUNKS = 11,
    /* start_of_varheader is not where META2 has to start, or META2 does not fit in the image */
    LAPUR_BAD_META2_PLACE = 12,
    /* a count or a value of META2 breaks its rule */
    LAPUR_BAD_META2 = 13,
    /* there is no such task, or of a pair no such rank */
    LAPUR_NO_TASK = 14,
    /* the request is longer than the task's chunk size */
    LAPUR_TOO_LONG = 15,
    /* the task has no chunk left */
    LAPUR_NO_CHUNK_LEFT = 16,
    /* the session or the loaded record is already closed, its numbers or lists break a rule, or it is of another file than meant */
    LAPUR_BAD_RECORD = 17,
    /* the lent image or table is too short */
    LAPUR_TOO_SHORT = 18,
    /* the table's cells disagree with the record */
    LAPUR_CELLS_DISAGREE = 19,
    /* the planned blocks K are not from 1 to 32 */
    LAPUR_BAD_PLANNED = 20,
    /* the filename prefix is over 1024 bytes */
    LAPUR_LONG_PREFIX = 21,
    /* the chunk number is not from 1 to the task's count */
    LAPUR_NO_CHUNK = 22,
    /* the place p is greater than the task's total */
    LAPUR_PAST_TOTAL = 23,
    /* the mapping of a pair does not fit in its first file, or is not that of its tasks' ranks */
    LAPUR_BAD_MAPPING = 25
};

/* What a refusal number means, as a sentence. */
static inline const char *lapur_sentence(uint32_t refusal)
{
    switch (refusal) {
    case 0: return "accepted";
    case LAPUR_NO_MARK: return "the image is under 4 bytes, or does not begin with sion";
    case LAPUR_NO_ORDER: return "the image is under 8 bytes, or the order number is 1 in neither byte order; at opening, the order is neither 0 nor 1";
    case LAPUR_SHORT_META1: return "the image is under 1076 bytes; later, under 1088 + 16 n bytes";
    case LAPUR_BAD_FORMAT: return "fileformat_version is neither 3 nor 4";
    case LAPUR_BAD_BLOCKSIZE: return "blocksize is no power of two from 512 to 4,194,304";
    case LAPUR_BAD_TASKS: return "ntasks is not from 1 to 64; at opening also, the lists of ranks and sizes are not equally long";
    case LAPUR_BAD_FILES: return "nfiles or filenumber is not that of the file meant: 1 and 0, and of a pair 2 and 0 or 1";
    case LAPUR_BAD_RANK: return "a rank is not from 0 to 2,147,483,647, or comes twice; opening a pair, its ranks are not 0, 1 and so on";
    case LAPUR_BAD_SIZE: return "a requested size is not from 1 to 1,073,741,824";
    case LAPUR_NOT_CLOSED: return "start_of_varheader is 0: the container was never closed";
    case LAPUR_BAD_MAXCHUNKS: return "maxchunks is not from 0 to 32";
    case LAPUR_BAD_META2_PLACE: return "start_of_varheader is not where META2 has to start, or META2 does not fit in the image";
    case LAPUR_BAD_META2: return "a count or a value of META2 breaks its rule";
    case LAPUR_NO_TASK: return "there is no such task, or of a pair no such rank";
    case LAPUR_TOO_LONG: return "the request is longer than the task's chunk size";
    case LAPUR_NO_CHUNK_LEFT: return "the task has no chunk left";
    case LAPUR_BAD_RECORD: return "the session or the loaded record is already closed, its numbers or lists break a rule, or it is of another file than meant";
    case LAPUR_TOO_SHORT: return "the lent image or table is too short";
    case LAPUR_CELLS_DISAGREE: return "the table's cells disagree with the record";
    case LAPUR_BAD_PLANNED: return "the planned blocks K are not from 1 to 32";
    case LAPUR_LONG_PREFIX: return "the filename prefix is over 1024 bytes";
    case LAPUR_NO_CHUNK: return "the chunk number is not from 1 to the task's count";
    case LAPUR_PAST_TOTAL: return "the place p is greater than the task's total";
    case LAPUR_BAD_MAPPING: return "the mapping of a pair does not fit in its first file, or is not that of its tasks' ranks";
    default: return "no such refusal number";
    }
}

/* The fields at which a load breaks off, each with the refusal numbers that are given for it. */
enum lapur_field {
    /* the mark, with which an image begins: 1 */
    LAPUR_FIELD_MARK = 1,
    /* the number that tells the byte order: 2 */
    LAPUR_FIELD_ORDER = 2,
    /* the image's end, which comes too early: 3, 12 */
    LAPUR_FIELD_IMAGE = 3,
    /* fileformat_version: 4 */
    LAPUR_FIELD_FORMAT = 4,
    /* blocksize: 5 */
    LAPUR_FIELD_BLOCKSIZE = 5,
    /* ntasks, the number of tasks: 6 */
    LAPUR_FIELD_TASKS = 6,
    /* nfiles: 7 */
    LAPUR_FIELD_FILES = 7,
    /* filenumber: 7 */
    LAPUR_FIELD_FILE_NUMBER = 8,
    /* a task's rank, which is out of range or that of an earlier task: 8 */
    LAPUR_FIELD_RANK = 9,
    /* a task's requested size: 9 */
    LAPUR_FIELD_SIZE = 10,
    /* maxchunks: 11, or 13 where the greatest count is another */
    LAPUR_FIELD_MAXCHUNKS = 11,
    /* start_of_varheader, which says where META2 starts: 10, 12 */
    LAPUR_FIELD_START = 12,
    /* the lent table, which is no part of the image: 18 */
    LAPUR_FIELD_TABLE = 13,
    /* a task's count, in META2: 13 */
    LAPUR_FIELD_COUNT = 14,
    /* the bytes written to a chunk, or -1, in META2: 13 */
    LAPUR_FIELD_VALUE = 15,
    /* mapping_size, of a pair: 25 */
    LAPUR_FIELD_MAPPING_SIZE = 16,
    /* the file number of an entry of the mapping; its task is its rank and 1: 25 */
    LAPUR_FIELD_ENTRY_FILE = 17,
    /* the local rank of an entry of the mapping: 25 */
    LAPUR_FIELD_ENTRY_TASK = 18,
    /* the rank of the task that an entry of the mapping names, which is another: 25 */
    LAPUR_FIELD_ENTRY_RANK = 19
};

/* A field's name, as in the format. */
static inline const char *lapur_field_name(uint32_t field)
{
    switch (field) {
    case LAPUR_FIELD_MARK: return "the mark";
    case LAPUR_FIELD_ORDER: return "the order number";
    case LAPUR_FIELD_IMAGE: return "the image's end";
    case LAPUR_FIELD_FORMAT: return "fileformat_version";
    case LAPUR_FIELD_BLOCKSIZE: return "blocksize";
    case LAPUR_FIELD_TASKS: return "ntasks";
    case LAPUR_FIELD_FILES: return "nfiles";
    case LAPUR_FIELD_FILE_NUMBER: return "filenumber";
    case LAPUR_FIELD_RANK: return "rank";
    case LAPUR_FIELD_SIZE: return "requested size";
    case LAPUR_FIELD_MAXCHUNKS: return "maxchunks";
    case LAPUR_FIELD_START: return "start_of_varheader";
    case LAPUR_FIELD_TABLE: return "the table";
    case LAPUR_FIELD_COUNT: return "count";
    case LAPUR_FIELD_VALUE: return "bytes written";
    case LAPUR_FIELD_MAPPING_SIZE: return "mapping_size";
    case LAPUR_FIELD_ENTRY_FILE: return "mapped file number";
    case LAPUR_FIELD_ENTRY_TASK: return "mapped local rank";
    case LAPUR_FIELD_ENTRY_RANK: return "rank of the mapped task";
    default: return "no such field";
    }
}

/*
 * The records.
 *
 * A record is its numbers and three lists with an entry for each task. The record of a session and that of a load are distinct types and
 * never mixed: a session is not read, and a loaded container is not written. A record belongs with its image and its table, and a call
 * takes all three: test 17 judges the record, 18 the lengths of image and table (for a session those of lapur_needs, for a loaded record
 * the container's end and n * maxchunks cells), and 19 the cells against the record. Entries past n are 0 and not judged. The closed mark
 * is 0 where it is unset; a record with any other mark is refused with 17. Every call of this header means a single file: a record whose
 * `files` is not 1 or whose `file` is not 0 is refused with 17 too.
 */

/* The numbers of a session's record. */
struct lapur_session_numbers {
    uint32_t order;                        /* the byte order: LAPUR_LITTLE or LAPUR_BIG */
    int32_t version;                       /* the library version, any number */
    int32_t patch;                         /* the patch level, any number */
    uint32_t format;                       /* fileformat_version: LAPUR_FORMAT_3 or LAPUR_FORMAT_4 */
    uint32_t blocksize;                    /* the bytes of a file-system block, a power of two from 512 to 4,194,304 */
    uint32_t n;                            /* the number of tasks, 1 to 64 */
    uint32_t files;                        /* nfiles, the physical files of the container: 1; of a pair 2 */
    uint32_t file;                         /* filenumber, which of them it is, counted from 0 */
    uint32_t planned;                      /* the planned blocks K, the most chunks of a task, 1 to 32 */
    uint32_t closed;                       /* the closed mark */
};

/* A session. */
struct lapur_session {
    struct lapur_session_numbers numbers;
    uint64_t ranks[LAPUR_TASKS];           /* each task's global rank, 0 to 2,147,483,647, all different, in any order */
    uint64_t sizes[LAPUR_TASKS];           /* each task's requested size, 1 to 1,073,741,824; lapur_chunk_size says what a chunk holds */
    uint64_t counts[LAPUR_TASKS];          /* the chunks that each task has begun; in format 4 at least 1 */
};

/* The numbers of a loaded container's record. */
struct lapur_loaded_numbers {
    uint32_t order;                        /* as in a session's record, and so are the next seven */
    int32_t version;
    int32_t patch;
    uint32_t format;
    uint32_t blocksize;
    uint32_t n;
    uint32_t files;
    uint32_t file;
    uint32_t maxchunks;                    /* the greatest number of chunks that a task used, 0 to 32 */
    uint32_t closed;                       /* the closed mark */
};

/* A loaded container. */
struct lapur_loaded {
    struct lapur_loaded_numbers numbers;
    uint64_t ranks[LAPUR_TASKS];           /* each task's global rank */
    uint64_t sizes[LAPUR_TASKS];           /* each task's requested size, as in a session's record */
    uint64_t counts[LAPUR_TASKS];          /* the chunks that each task used; in format 4 at least 1 */
};

/* What a session is opened with, beside the ranks, the sizes and the filename prefix. */
struct lapur_plan {
    uint32_t order;                        /* as in a session's record, and so are the next four */
    int32_t version;
    int32_t patch;
    uint32_t format;
    uint32_t blocksize;
    uint32_t planned;                      /* the planned blocks K, 1 to 32 */
};

/*
 * The answers. In each, `refusal` is 0 or a number of enum lapur_refusal.
 */

/* What lapur_needs answers. */
struct lapur_needed {
    uint32_t refusal;
    uint64_t image;                        /* the least bytes of the image */
    uint64_t cells;                        /* the least cells of the table */
};

/* What lapur_open answers. */
struct lapur_opened {
    struct lapur_session session;
    uint32_t refusal;
};

/* What lapur_close answers. */
struct lapur_closed {
    uint32_t refusal;
    uint64_t length;                       /* the bytes of the container, from the image's start */
};

/* What lapur_close_lent answers. */
struct lapur_closed_lent {
    uint32_t refusal;
    struct lapur_session_numbers numbers;  /* those of the record after the call */
    uint64_t length;
};

/*
 * Where a refused load broke off: the first offending field, by the order of the tests. Of an accepted load all of it is 0.
 *
 * The place is where the field stands in the image, so that `xxd -s PLACE -l 8 FILE` shows it. Three are no numbers of the image: of an
 * image that is too short, place and says are its length, and least and most the bytes that it would need; of a table that is too short, the
 * place is 0, says is the cells lent, and least and most the cells needed; and of the mark and the order number only place and field are told.
 *
 * A number from least to most breaks a second rule: a blocksize is no power of two, or a rank is that of an earlier task.
 */
struct lapur_fault {
    uint64_t place;                        /* where in the image the field stands */
    int64_t says;                          /* the number that stands there */
    int64_t least;                         /* from where .. */
    int64_t most;                          /* .. to where it may be */
    uint32_t field;                        /* which field: a number of enum lapur_field */
    uint32_t task;                         /* of which task, counted from 1; 0 where it is of none */
    uint32_t chunk;                        /* of which chunk, counted from 1; 0 where it is of none */
};

/* What lapur_load answers. */
struct lapur_load_answer {
    struct lapur_loaded loaded;
    uint32_t refusal;
    struct lapur_fault fault;
};

/* What lapur_chunk and lapur_prefix answer: the bytes are image[start] up to, and without, image[start + length]. */
struct lapur_part {
    uint32_t refusal;
    uint64_t start;
    uint64_t length;
};

/* What lapur_chunk_size, lapur_total, lapur_read and lapur_length answer. */
struct lapur_byte_count {
    uint32_t refusal;
    uint64_t bytes;                        /* what a chunk holds, the bytes of the task, the bytes copied, or the bytes of the container */
};

/* The sizes that these records have in the library: a compiler that is told to lay them out otherwise stops here. */
#define LAPUR_SIZE(record, bytes) typedef char lapur_##record##_size[sizeof(struct lapur_##record) == (bytes) ? 1 : -1]
LAPUR_SIZE(session_numbers, 40);
LAPUR_SIZE(session, 1576);
LAPUR_SIZE(loaded_numbers, 40);
LAPUR_SIZE(loaded, 1576);
LAPUR_SIZE(plan, 24);
LAPUR_SIZE(needed, 24);
LAPUR_SIZE(opened, 1584);
LAPUR_SIZE(closed, 16);
LAPUR_SIZE(closed_lent, 56);
LAPUR_SIZE(fault, 48);
LAPUR_SIZE(load_answer, 1632);
LAPUR_SIZE(part, 24);
LAPUR_SIZE(byte_count, 16);
#undef LAPUR_SIZE

/*
 * The functions.
 *
 * One whose name ends in _lent takes a record in two parts, so that no record is copied: the numbers by value, and the lists lent as one
 * array, the ranks, then the sizes, then the counts. Tests, changes and answer are those of the function without _lent, which takes a
 * pointer to the record whole and hands over these two parts: all its numbers at once, and the pointer of one of the next two.
 */

/* The lists of a session's record as one array. The pointer is made from that to the whole record, since it goes over all three lists. */
static inline uint64_t *lapur_session_lists(struct lapur_session *session)
{
    return (uint64_t *)(void *)((char *)session + offsetof(struct lapur_session, ranks));
}

/* The lists of a loaded container's record, likewise. */
static inline const uint64_t *lapur_loaded_lists(const struct lapur_loaded *loaded)
{
    return (const uint64_t *)(const void *)((const char *)loaded + offsetof(struct lapur_loaded, ranks));
}

/* The version of the library that is linked, as LAPUR_VERSION counts. A program with the shared library compares the two. */
uint32_t lapur_version(void);

/*
 * Counts the bytes that a chunk of a task holds, which are also the most that a request to it may have: the chunk size, from the task's
 * requested size and the blocksize of the plan or the record.
 *
 * Tests: 5, 9.
 * Refused: the count is 0.
 */
struct lapur_byte_count lapur_chunk_size(
    uint64_t size, uint32_t blocksize);

/*
 * What an opening with this plan needs. The number of tasks is the length of both lists; `sizes` are the requested sizes; `prefix` is the
 * filename prefix, at most 1024 bytes, with no zero at its end. The version and the patch level of the plan do not matter.
 *
 * Tests: 2, 4, 5, 6, 21, 8, 9, 20.
 * Refused: both lengths are 0.
 */
struct lapur_needed lapur_needs(
    struct lapur_plan plan,
    const uint64_t *ranks, size_t ranks_length,
    const uint64_t *sizes, size_t sizes_length,
    const uint8_t *prefix, size_t prefix_length);

/*
 * Opens a session. The image and the table are at least as long as lapur_needs says for the same plan.
 *
 * Tests: 2, 4, 5, 6, 21, 8, 9, 20, 18.
 * Changes: the image from its start to chunk 1 of task 1, which becomes META1 and zeros; the first n * planned cells, which become -1, but
 * in format 4 the first n of them 0.
 * Stores, in this order: 0 into the image's first byte, then all from its second byte on, and the s of the mark last. They are as many as
 * there are bytes before chunk 1 of task 1, and one more.
 * Hands back: the record, with all counts 0, in format 4 all 1, and the closed mark unset. Refused: a record of zeros, marked closed.
 */
struct lapur_opened lapur_open(
    struct lapur_plan plan,
    const uint64_t *ranks, size_t ranks_length,
    const uint64_t *sizes, size_t sizes_length,
    const uint8_t *prefix, size_t prefix_length,
    uint8_t *image, size_t image_length,
    int64_t *table, size_t cells);

/* lapur_write, of a record in two parts. */
uint32_t lapur_write_lent(
    struct lapur_session_numbers numbers, uint64_t lists[LAPUR_LISTS],
    uint8_t *image, size_t image_length,
    int64_t *table, size_t cells,
    uint64_t task,
    const uint8_t *bytes, size_t length);

/*
 * Writes bytes to a task: straight after its last bytes if they fit in the chunk in use, else to the start of its next chunk. They are
 * never split. What fits is told by the chunk size, not by the requested size: a request may have as many bytes as lapur_chunk_size
 * counts, and one byte more is refused with 15. An empty request changes nothing. Whether a request is taken, and where its bytes go,
 * does not depend on the format.
 *
 * Tests: 17, 18, 19, 14, then an empty request is accepted, 15, 16.
 * Changes: those bytes of the image, the chunk's cell and the task's count in the record. Refused: nothing, and the session goes on.
 * Stores, in this order: the bytes, from the first to the last.
 * Hands back: the refusal number or 0.
 */
static inline uint32_t lapur_write(
    struct lapur_session *session,
    uint8_t *image, size_t image_length,
    int64_t *table, size_t cells,
    uint64_t task,
    const uint8_t *bytes, size_t length)
{
    return lapur_write_lent(session->numbers, lapur_session_lists(session), image, image_length, table, cells, task, bytes, length);
}

/* lapur_close, of a record in two parts: it hands back the numbers, since only they change. */
struct lapur_closed_lent lapur_close_lent(
    struct lapur_session_numbers numbers, const uint64_t lists[LAPUR_LISTS],
    uint8_t *image, size_t image_length,
    const int64_t *table, size_t cells);

/*
 * Closes a session. META2 follows the blocks in use, so the container may be shorter than the image.
 *
 * Tests: 17, 18, 19.
 * Changes: in the image META2, and in META1 the two fields maxchunks and start_of_varheader; the record is marked closed.
 * Stores, in this order: META2, then the 4 bytes of maxchunks, then the 8 bytes of start_of_varheader, each from its first byte to its last.
 * They are 8 n (1 + maxchunks) + 12.
 * Hands back: the container's length. Refused: the length 0.
 */
static inline struct lapur_closed lapur_close(
    struct lapur_session *session,
    uint8_t *image, size_t image_length,
    const int64_t *table, size_t cells)
{
    struct lapur_closed_lent answer =
        lapur_close_lent(session->numbers, lapur_session_lists(session), image, image_length, table, cells);
    struct lapur_closed closed = {answer.refusal, answer.length};
    session->numbers = answer.numbers;
    return closed;
}

/*
 * Checks a container; bytes after its end are not looked at. A table of LAPUR_CELLS cells is always long enough.
 *
 * Tests: 1, 2, 3 (1076 bytes), 4, 5, 6, 7, 3 (all of META1), 8, 9, 10, 11, 12, 18 (table), 13.
 * Changes: the first n * maxchunks cells, which become the bytes written to chunk 1 of each task, then to chunk 2 of each, and so on; -1
 * stands for a chunk that the task did not use.
 * Hands back: the record, with the closed mark unset. Refused: a record of zeros, marked closed, and where the load broke off: in 7 nfiles is
 * judged before filenumber; in 8 and 9 the first task counts, of two equal ranks the later; in 12 start_of_varheader is judged before
 * META2's end; in 13 all counts are, then maxchunks by the greatest of them, then the values, chunk 1 of each task first.
 */
struct lapur_load_answer lapur_load(
    const uint8_t *image, size_t image_length,
    int64_t *table, size_t cells);

/* lapur_chunk, of a record in two parts. */
struct lapur_part lapur_chunk_lent(
    struct lapur_loaded_numbers numbers, const uint64_t lists[LAPUR_LISTS],
    const uint8_t *image, size_t image_length,
    const int64_t *table, size_t cells,
    uint64_t task, uint64_t chunk);

/*
 * Finds the written bytes of one chunk in the image; nothing is copied. The part always lies within the image.
 *
 * Tests: 17, 18, 19, 14, 22.
 * Refused: the empty part, with start and length 0.
 */
static inline struct lapur_part lapur_chunk(
    const struct lapur_loaded *loaded,
    const uint8_t *image, size_t image_length,
    const int64_t *table, size_t cells,
    uint64_t task, uint64_t chunk)
{
    return lapur_chunk_lent(loaded->numbers, lapur_loaded_lists(loaded), image, image_length, table, cells, task, chunk);
}

/* lapur_total, of a record in two parts. */
struct lapur_byte_count lapur_total_lent(
    struct lapur_loaded_numbers numbers, const uint64_t lists[LAPUR_LISTS],
    const uint8_t *image, size_t image_length,
    const int64_t *table, size_t cells,
    uint64_t task);

/*
 * Counts the bytes of a task, in all its chunks.
 *
 * Tests: 17, 18, 19, 14.
 * Refused: the count is 0.
 */
static inline struct lapur_byte_count lapur_total(
    const struct lapur_loaded *loaded,
    const uint8_t *image, size_t image_length,
    const int64_t *table, size_t cells,
    uint64_t task)
{
    return lapur_total_lent(loaded->numbers, lapur_loaded_lists(loaded), image, image_length, table, cells, task);
}

/* lapur_read, of a record in two parts. */
struct lapur_byte_count lapur_read_lent(
    struct lapur_loaded_numbers numbers, const uint64_t lists[LAPUR_LISTS],
    const uint8_t *image, size_t image_length,
    const int64_t *table, size_t cells,
    uint64_t task, uint64_t place,
    uint8_t *out, size_t out_length);

/*
 * Copies a task's bytes, across its chunks, from a place in its whole stream: as many as fit in the output, or all that follow. At the
 * stream's end, where the place is the total, it is accepted and copies none.
 *
 * Tests: 17, 18, 19, 14, 23.
 * Changes: the bytes of the output that it copied, and none after them.
 * Hands back: the number of bytes copied. Refused: 0.
 */
static inline struct lapur_byte_count lapur_read(
    const struct lapur_loaded *loaded,
    const uint8_t *image, size_t image_length,
    const int64_t *table, size_t cells,
    uint64_t task, uint64_t place,
    uint8_t *out, size_t out_length)
{
    return lapur_read_lent(loaded->numbers, lapur_loaded_lists(loaded), image, image_length, table, cells, task, place, out, out_length);
}

/* lapur_length, of a record in two parts. */
struct lapur_byte_count lapur_length_lent(
    struct lapur_loaded_numbers numbers, const uint64_t lists[LAPUR_LISTS],
    const uint8_t *image, size_t image_length,
    const int64_t *table, size_t cells);

/*
 * Counts the bytes of the container, up to the end of META2: what follows them in the image is not part of it.
 *
 * Tests: 17, 18, 19.
 * Refused: the count is 0.
 */
static inline struct lapur_byte_count lapur_length(
    const struct lapur_loaded *loaded,
    const uint8_t *image, size_t image_length,
    const int64_t *table, size_t cells)
{
    return lapur_length_lent(loaded->numbers, lapur_loaded_lists(loaded), image, image_length, table, cells);
}

/* lapur_prefix, of a record in two parts. */
struct lapur_part lapur_prefix_lent(
    struct lapur_loaded_numbers numbers, const uint64_t lists[LAPUR_LISTS],
    const uint8_t *image, size_t image_length,
    const int64_t *table, size_t cells);

/*
 * Finds the filename prefix in the image, up to its first zero, or all 1024 bytes of its field where none is zero; nothing is copied. Its
 * bytes are not judged: a prefix may hold anything.
 *
 * Tests: 17, 18, 19.
 * Refused: the empty part, with start and length 0.
 */
static inline struct lapur_part lapur_prefix(
    const struct lapur_loaded *loaded,
    const uint8_t *image, size_t image_length,
    const int64_t *table, size_t cells)
{
    return lapur_prefix_lent(loaded->numbers, lapur_loaded_lists(loaded), image, image_length, table, cells);
}

#ifdef __cplusplus
}
#endif

#endif
