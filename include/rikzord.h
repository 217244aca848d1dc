/* The C interface of Rikzord: a multi-core task machine whose every function is proved to meet its contract.
 *
 * Link with librikzord.a, which `tools/staticlib rikzord` writes; `install.sh PREFIX` puts it, this header and rikzord.pc in their places, so that
 * `pkg-config --cflags --libs rikzord` gives the flags. There is no heap and no hidden state: all memory is the caller's. c/first.c is a program to start from.
 *
 * What a caller owes, and no proof can check:
 * - No pointer is null, that of an empty slice included; it is never read there, but must not be null. Each is aligned for its type.
 * - Behind each pointer lie as many elements as its count says, of memory that the caller may read and, where the parameter isn't const, write.
 * - What one call may write overlaps nothing else that is lent to it. Slices that are only read may overlap each other.
 * - Nothing else reads or writes that memory during the call.
 *
 * Each call answers a number: 0, or why it was refused (enum rikzord_refusal). Any bytes and any lengths may be lent: nothing is required of their values. Of
 * several reasons the one that its "Refuses" names first is given; "the file" there stands for the numbers of rikzord_check_file in their own order. A refused
 * call changes nothing. A call that is not refused changes what its "Leaves" names and nothing else. The definitions are in crates/rikzord/specs/Lent.antt,
 * where no other place is named. */
#ifndef RIKZORD_H
#define RIKZORD_H

#include <stddef.h>
#include <stdint.h>

#ifdef __cplusplus
extern "C" {
#endif

/* ---- sizes and numbers */

enum {
    RIKZORD_SHARED_SIZE = 1024, /* bytes of shared memory */
    RIKZORD_MOST_CORES = 4,
    RIKZORD_CALL_DEPTH = 16,   /* calls that can be open in a core */
    RIKZORD_WRITING_MARK = 16, /* a byte of the order list is the core, plus this for a writing */
    RIKZORD_NO_CORE = 255      /* what rikzord_next_core finds where no core can move */
};

/* The numbers of documents 01 and 02. */
enum rikzord_refusal {
    RIKZORD_ACCEPTED = 0,
    RIKZORD_FILE_CUT = 1,           /* the file ends before its last section does: sending it again makes sense */
    RIKZORD_MARK = 2,               /* the mark */
    RIKZORD_CORE_RECORD = 3,        /* core count or record */
    RIKZORD_VARIABLE_RECORD = 4,    /* variable count or record */
    RIKZORD_OVERLAP = 5,            /* two variables share a byte */
    RIKZORD_CODE = 6,               /* code length, code byte, type, MCD length, element size or count outside its list; instruction cut */
    RIKZORD_TARGET = 7,             /* a target starts no instruction, or the last is neither RETURN nor JMP */
    RIKZORD_NO_SUCH_CORE = 20,      /* the order, or the call's own argument, names a core from n on */
    RIKZORD_LENT_MEMORY = 21,       /* lent memory has the wrong size, or an output is too short */
    RIKZORD_TRACE = 22,             /* the trace is cut or too long */
    RIKZORD_UNFIT_STATE = 23,       /* the state is unfit */
    RIKZORD_BYTES_LEFT_OVER = 24,   /* bytes follow the file's last section: sending it again makes no sense */
    RIKZORD_TARGET_NOT_ABOVE = 25,  /* a jump or call leads to a place not above its own */
    RIKZORD_COUNT_TOO_GREAT = 26,   /* an instruction count above 65,535 */
    RIKZORD_WIDE_TYPE = 27,         /* LINT, LWORD, REAL or LREAL under the small profile */
    RIKZORD_SPAN = 28,              /* a span that is not 1 to 600,000 */
    RIKZORD_ANSWER_PLACES = 29,     /* fewer answer places than records */
    RIKZORD_RUN_OF_RECORDS = 30,    /* a time below the one before, or a run cut inside a record */
    RIKZORD_START_PLACE = 31,       /* a start place beyond the data or not rising */
    RIKZORD_START_VALUES = 32,      /* a file with start values sent back */
    RIKZORD_LIST_NOT_PRODUCED = 33, /* no order of steps produces the order list */
    RIKZORD_WINDOW = 34             /* no such core, or a stretch that leaves its code or data */
};

/* The modes of a core. */
enum rikzord_mode {
    RIKZORD_BETWEEN_CYCLES = 0,
    RIKZORD_READING = 1,
    RIKZORD_EXECUTING = 2,
    RIKZORD_WAITING_TO_WRITE = 3,
    RIKZORD_WRITING = 4,
    RIKZORD_STOPPED = 5
};

/* ---- the state: a core table, a semaphore, a data buffer and shared memory */

/* A record of the core table: a core's registers and call stack. Every byte of it belongs to a field. Entries of the stack from the depth on
 * are 0. Spare bytes are never judged; a call that is not refused leaves zeros in those of each record that it writes. */
struct rikzord_core {
    uint32_t time;     /* of the cycle's input record */
    uint16_t counter;  /* program counter */
    uint16_t offset;   /* data offset */
    uint16_t count;    /* instruction count of the cycle */
    uint16_t exchange; /* exchange number: bytes copied */
    uint16_t cycles;
    uint8_t mode;      /* enum rikzord_mode */
    uint8_t depth;     /* open calls */
    uint8_t flags;     /* bits: 0 array index, 1 instruction limit, 2 cold start, 3 zero divisor, 4 address beyond the data, 5 seventeenth call,
                        * 6 a conversion whose result the destination can't hold; bit 7 makes a state unfit (23) */
    uint8_t spare[3];
    uint16_t places[16];  /* return places */
    uint16_t offsets[16]; /* the data offsets that go with them */
};

#if defined(__STDC_VERSION__) && __STDC_VERSION__ >= 201112L
_Static_assert(sizeof(struct rikzord_core) == 84, "a record of the core table has 84 bytes, and no padding");
#endif

/* The semaphore and the line of cores that wait for it, beside the table. A line that names a core twice, one from n on, one that is not in mode 0 or 3,
 * or one out of records is unfit (23), and so are more than four in line. Entries past `waiting` are never judged; a call that is not refused leaves zeros
 * there. */
struct rikzord_semaphore {
    uint8_t holder;  /* 0 where it is free, k + 1 where core k holds it */
    uint8_t waiting; /* cores in line */
    uint8_t line[4]; /* their numbers, the first one first */
};

#if defined(__STDC_VERSION__) && __STDC_VERSION__ >= 201112L
_Static_assert(sizeof(struct rikzord_semaphore) == 6, "a semaphore has 6 bytes, and no padding");
#endif

/* Below, `file` is a task set file of n cores; `trace` holds for each core a 16-bit count and its input records, and one of no bytes means one record of
 * zeros for every core; `buffer` is the data buffer, the cores' data end to end, whose length is the sum of the data sizes; `shared` has 1,024 bytes. */

/* ---- a task set file, judged */

/* Judges a task set file.
 * Gives: its number, 0 where it is accepted.
 * Refuses, from the front of the file to its end: 1 where an item is missing, then the item: 2, 3, 4, 5, for each core's code 6 and 7, for each start value
 *   31; last 24.
 * Leaves: nothing is written. */
uint8_t rikzord_check_file(const uint8_t *file, size_t file_length);

/* Judges it for the smallest controller, which carries no 64-bit numbers and no floats.
 * Gives, leaves: as rikzord_check_file.
 * Refuses: as rikzord_check_file; besides, a data size above 1,024 is 3, and an instruction that names one of the types 7 to 10 is 27, tested at that
 *   instruction right after 6. */
uint8_t rikzord_check_file_small(const uint8_t *file, size_t file_length);

/* ---- the machine */

/* Makes the fresh state.
 * Gives: 0 or the refusal.
 * Refuses: the file; 21 for a table of less than n records, a buffer or shared memory of another length.
 * Leaves: both memories zero but for the start values of a file of the new form (mark 4D 43 53 32 hex), which stand in the cores' data, and in shared memory
 *   for each variable as its writer has them; in the first n records of the table each core in mode 0 with registers 0 and flags 4; the semaphore free and
 *   nobody in line. What these held before counts for nothing. */
uint8_t rikzord_fresh(const uint8_t *file, size_t file_length, struct rikzord_core *table, size_t table_length, struct rikzord_semaphore *semaphore,
                      uint8_t *buffer, size_t buffer_length, uint8_t *shared, size_t shared_length);

/* The same of a file that is loaded as small. Every later call knows no profile and runs the file step for step as it does otherwise.
 * Gives, leaves: as rikzord_fresh.
 * Refuses: the number of rikzord_check_file_small; then 21 as rikzord_fresh. */
uint8_t rikzord_fresh_small(const uint8_t *file, size_t file_length, struct rikzord_core *table, size_t table_length,
                            struct rikzord_semaphore *semaphore, uint8_t *buffer, size_t buffer_length, uint8_t *shared, size_t shared_length);

/* One step of a core.
 * Gives: 0 or the refusal. Whether the step was a taking shows in the core's mode: from 0 to 1 it is a reading, from 3 to 4 a writing.
 * Refuses: the file; 21 for a buffer or shared memory of another length; 22; 23, a table that has not n records included; 20.
 * Leaves: the state after the step: all n records, the semaphore, both memories. */
uint8_t rikzord_step(const uint8_t *file, size_t file_length, const uint8_t *trace, size_t trace_length, struct rikzord_core *table,
                     size_t table_length, struct rikzord_semaphore *semaphore, uint8_t *buffer, size_t buffer_length, uint8_t *shared,
                     size_t shared_length, uint8_t core);

/* The steps of an order, one byte a step: the core's number.
 * Gives: 0 or the refusal.
 * Refuses: the file; 21 for a buffer or shared memory of another length or a `list` that is shorter than the order; 22; 23, a table that has not n records
 *   included; 20. The order is judged whole before a step.
 * Leaves: the state after the last step; at the front of `list` a byte for each taking, the core, plus 16 for a writing; in `taken` how many there are. Bytes of
 *   the list after those stay. */
uint8_t rikzord_run(const uint8_t *file, size_t file_length, const uint8_t *trace, size_t trace_length, struct rikzord_core *table,
                    size_t table_length, struct rikzord_semaphore *semaphore, uint8_t *buffer, size_t buffer_length, uint8_t *shared,
                    size_t shared_length, const uint8_t *order, size_t order_length, uint8_t *list, size_t list_length, size_t *taken);

/* Reruns an order list from the fresh state, with every exchange whole and each execution straight after its reading: the takings of `list`, one byte
 * each as a run writes them. It is lent no state: what the table, the semaphore and both memories hold on entry counts for nothing.
 * Gives: 0 or the refusal.
 * Refuses: the file; 21 for a table of less than n records, a buffer or shared memory of another length; 22; 33 where no order of steps from the fresh
 *   state produces the list, one with a byte that names no core included.
 * Leaves: what every run with those takings leaves once each core is between cycles, stopped or waiting to write, in the first n records of the table and
 *   in both memories; the semaphore free and nobody in line. An empty list leaves the fresh state.
 * Since a list that is refused at its last byte leaves all that is lent, the call works in two arrays on the stack, of 16,384 and 1,024 bytes. The
 * definitions are in crates/rerun/specs/Calls.antt. */
uint8_t rikzord_rerun(const uint8_t *file, size_t file_length, const uint8_t *trace, size_t trace_length, const uint8_t *list, size_t list_length,
                      struct rikzord_core *table, size_t table_length, struct rikzord_semaphore *semaphore, uint8_t *buffer, size_t buffer_length,
                      uint8_t *shared, size_t shared_length);

/* The first core after `given`, round the ring and that one last, whose step would change something.
 * Gives: 0 or the refusal.
 * Refuses: the file; 22; 23, a table that has not n records included; 20 where `given` is n or more.
 * Leaves: the core in `found`, or 255 where there is none: every core is stopped or out of records. */
uint8_t rikzord_next_core(const uint8_t *file, size_t file_length, const uint8_t *trace, size_t trace_length, const struct rikzord_core *table,
                          size_t table_length, const struct rikzord_semaphore *semaphore, uint8_t given, uint8_t *found);

/* ---- a debugger's window */

/* Where `count` bytes of a core's code from `start` on stand in the file: at file + place; they are not copied. A count of 0 is an empty stretch, also at
 * the very end.
 * Gives: 0 or the refusal.
 * Refuses: the file; 21 for a buffer of another length; 34 for no such core, or a stretch that leaves the core's code.
 * Leaves: the place in `place`. */
uint8_t rikzord_code_window(const uint8_t *file, size_t file_length, const uint8_t *buffer, size_t buffer_length, uint8_t core, size_t start,
                            size_t count, size_t *place);

/* The same of a core's data, at buffer + place.
 * Gives, leaves: as rikzord_code_window.
 * Refuses: the file; 21 for a buffer of another length; 34 for no such core, or a stretch that leaves the core's data. */
uint8_t rikzord_data_window(const uint8_t *file, size_t file_length, const uint8_t *buffer, size_t buffer_length, uint8_t core, size_t start,
                            size_t count, size_t *place);

/* ---- what can be asked of a file alone */

/* What a task will take.
 * Gives: 0 or the refusal.
 * Refuses: the file; for each core in turn 25 where a jump or call leads to a place not above its own, 26 where the count is above 65,535; 21 for an output
 *   that is too short: 3 places for the lengths, n for counts and depths.
 * Leaves: in the first three places of `lengths` the lengths of data buffer, shared memory (both in bytes) and core table (in records); in place k of
 *   `counts` and of `depths` the greatest instruction count of a cycle and the greatest call depth of core k, over every choice at its conditional jumps,
 *   faults and the depth limit left aside. Other places stay. From the fresh state on, an instruction limit at or above the count is never hit, and a depth of
 *   at most 16 never raises bit 5.
 * The definitions are in crates/bounds/specs/Paths.antt and Bounds.antt. */
uint8_t rikzord_takes(const uint8_t *file, size_t file_length, size_t *lengths, size_t lengths_length, uint32_t *counts, size_t counts_length,
                      uint32_t *depths, size_t depths_length);

/* Whether every run of a task set's cores that ends between cycles ends as an order of whole cycles, as far as the variables tell. Draw a line between two
 * cores when one reads a variable that the other writes.
 * Gives: 0 or the refusal.
 * Refuses: the file.
 * Leaves: in `lines` 0 where no two cores read each other and the lines form no ring, which is where this is proved; 1 where two cores read each other; 2 where
 *   no two do and the lines form a ring.
 * The definitions are in crates/cycles/specs/Check.antt. */
uint8_t rikzord_check_cycles(const uint8_t *file, size_t file_length, uint8_t *lines);

/* An old file (mark 4D 43 53 31 hex) in the new form, with a count of 0 for each core. It has at most 8 bytes more. Both files run alike.
 * Gives: 0 or the refusal.
 * Refuses: 1 where the file has less than four bytes; 2 where its mark is not the old one; the file; 21 where `out` is too short.
 * Leaves: the file at the front of `out`, its length in `length`; bytes past it stay.
 * The definitions are in crates/forms/specs/Forms.antt. */
uint8_t rikzord_to_new(const uint8_t *file, size_t file_length, uint8_t *out, size_t out_length, size_t *length);

/* A new file (mark 4D 43 53 32 hex) without start values in the old form. Both ways together return the first file.
 * Gives, leaves: as rikzord_to_new.
 * Refuses: 1 where the file has less than four bytes; 2 where its mark is not the new one; the file; 32 where it has start values; 21 where `out` is too
 *   short. */
uint8_t rikzord_to_old(const uint8_t *file, size_t file_length, uint8_t *out, size_t out_length, size_t *length);

/* ---- beside the machine */

/* The lowest reading over the holding time. A run has records of six bytes, a TIME in milliseconds and an INT, low byte first; times don't fall.
 * Gives: 0 or the refusal.
 * Refuses: 28 where `span` is not 1 to 600,000; 29 where there are fewer places (of two bytes) than records, a cut one counted; 30 where a time is below
 *   the one before or the run is cut inside a record.
 * Leaves: in `answers`, for each record, the smallest reading among the records up to it whose time is at least its own time minus `span`, an INT of two
 *   bytes; bytes past the answers stay.
 * The definitions are in crates/holding/specs/Holding.antt. */
uint8_t rikzord_lowest(const uint8_t *run, size_t run_length, uint32_t span, uint8_t *answers, size_t answers_length);

#ifdef __cplusplus
}
#endif

#endif
