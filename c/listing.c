/* Document 01's listing example over the C interface: prints what the program `cores` prints there, then tries some refusals.
 * Build and run it by c/run.sh. */
#include "rikzord.h"

#include <stdio.h>
#include <string.h>

/* Each field starts where the one before ends, and the last ends with the record: no byte of a record is padding. */
#define END(field) (offsetof(struct rikzord_core, field) + sizeof(((struct rikzord_core *)0)->field))
#define FOLLOWS(field, before) _Static_assert(offsetof(struct rikzord_core, field) == END(before), #field " follows " #before)
_Static_assert(offsetof(struct rikzord_core, time) == 0, "time comes first");
FOLLOWS(counter, time);
FOLLOWS(offset, counter);
FOLLOWS(count, offset);
FOLLOWS(exchange, count);
FOLLOWS(cycles, exchange);
FOLLOWS(mode, cycles);
FOLLOWS(depth, mode);
FOLLOWS(flags, depth);
FOLLOWS(spare, flags);
FOLLOWS(places, spare);
FOLLOWS(offsets, places);
_Static_assert(sizeof(struct rikzord_core) == END(offsets), "nothing comes after");

static int failures = 0;

static void expect(int holds, const char *what) {
    if (!holds) {
        printf("FAILED: %s\n", what);
        failures++;
    }
}

int main(void) {
    static const uint8_t task[] = {0x4D, 0x43, 0x53, 0x31, 0x01, 0x01, 0x00, 0x00, 0x00, 0x01, 0x00, 0x00, 0x01, 0x00, 0x00};
    static const uint8_t trace[] = {0x01, 0x00, 0x00, 0x00, 0x00, 0x00};
    static const uint8_t order[5] = {0, 0, 0, 0, 0};
    struct rikzord_core table[2], before[2], made;
    uint8_t buffer[1] = {7}, shared[1024], list[5] = {9, 9, 9, 9, 9}, found = 77;
    struct rikzord_semaphore semaphore = {3, 9, {9, 9, 9, 9}}, held = semaphore, none = {0, 0, {0, 0, 0, 0}};
    size_t taken = 99;
    memset(table, 0xA5, sizeof table);
    memcpy(before, table, sizeof table);

    expect(rikzord_check_file(task, sizeof task) == 0, "the file is accepted");
    expect(rikzord_check_file(task, 3) == 1, "a file that ends early");
    uint8_t longer[sizeof task + 1] = {0};
    memcpy(longer, task, sizeof task);
    expect(rikzord_check_file(longer, sizeof longer) == 24, "a file with a byte left over");

    /* a table that is too short, and shared memory that is */
    expect(rikzord_fresh(task, sizeof task, table, 0, &semaphore, buffer, 1, shared, 1024) == 21, "a table of no records is too short");
    expect(rikzord_fresh(task, sizeof task, table, 1, &semaphore, buffer, 1, shared, 1023) == 21, "1,023 bytes");
    expect(memcmp(&held, &semaphore, sizeof held) == 0 && buffer[0] == 7 && memcmp(before, table, sizeof table) == 0, "a refused call changes nothing");

    /* only the first record of two is written */
    expect(rikzord_fresh(task, sizeof task, table, 2, &semaphore, buffer, 1, shared, 1024) == 0, "the fresh state");
    expect(memcmp(&none, &semaphore, sizeof none) == 0 && buffer[0] == 0 && table[0].flags == 4, "fresh: memory zero, flags 4, semaphore free, nobody in line");
    memset(&made, 0, sizeof made);
    made.flags = 4;
    expect(memcmp(&made, &table[0], sizeof made) == 0, "a fresh record, every byte of it");
    expect(memcmp(&before[1], &table[1], sizeof table[1]) == 0, "the record from n on stays");

    /* spare bytes are not judged; a refused call leaves them, an accepted one clears them */
    memset(table[0].spare, 0xA5, sizeof table[0].spare);
    memcpy(before, table, sizeof table);

    expect(rikzord_step(task, sizeof task, trace, sizeof trace, table, 2, &semaphore, buffer, 1, shared, 1024, 0) == 23, "a table of two records");
    expect(rikzord_step(task, sizeof task, trace, sizeof trace, table, 1, &semaphore, buffer, 1, shared, 1024, 1) == 20, "core 1 of 1");
    expect(semaphore.holder == 0 && memcmp(before, table, sizeof table) == 0, "refused steps change nothing");
    expect(rikzord_next_core(task, sizeof task, trace, 1, table, 1, &semaphore, 0, &found) == 22 && found == 77, "a trace of one byte");
    expect(rikzord_next_core(task, sizeof task, trace, sizeof trace, table, 1, &semaphore, 0, &found) == 0 && found == 0, "core 0 moves next");

    /* one step, then four more as a run */
    expect(rikzord_step(task, sizeof task, trace, sizeof trace, table, 1, &semaphore, buffer, 1, shared, 1024, 0) == 0, "a step");
    expect(table[0].mode == 1 && semaphore.holder == 1, "the first step takes the semaphore");
    made.mode = 1;
    expect(memcmp(&made, &table[0], sizeof made) == 0, "the record after it, every byte of it");
    expect(rikzord_fresh(task, sizeof task, table, 1, &semaphore, buffer, 1, shared, 1024) == 0, "fresh again");
    expect(rikzord_run(task, sizeof task, trace, sizeof trace, table, 1, &semaphore, buffer, 1, shared, 1024, order, 5, list, 4, &taken) == 21, "an order list that is too short");
    made.mode = 0;
    expect(taken == 99 && list[0] == 9 && semaphore.holder == 0 && memcmp(&made, &table[0], sizeof made) == 0, "a refused run changes nothing");
    expect(rikzord_run(task, sizeof task, trace, sizeof trace, table, 1, &semaphore, buffer, 1, shared, 1024, order, 5, list, 5, &taken) == 0, "the run");
    expect(taken == 2 && list[0] == 0 && list[1] == 16 && list[2] == 9, "its takings; bytes after those stay");
    expect(rikzord_next_core(task, sizeof task, trace, sizeof trace, table, 1, &semaphore, 0, &found) == 0 && found == 255, "no core moves");

    /* the lines between its cores: of one core there are none */
    uint8_t lines = 77;
    expect(rikzord_check_cycles(task, 3, &lines) == 1 && lines == 77, "a refused check leaves its byte");
    expect(rikzord_check_cycles(task, sizeof task, &lines) == 0 && lines == 0, "the lines are free");

    printf("core mode cycles flags count\n");
    printf("0 %u %u %u %u\n", table[0].mode, table[0].cycles, table[0].flags, table[0].count);
    printf("order");
    for (size_t i = 0; i < taken; i++) {
        printf(" %u%c", list[i] % 16, list[i] < 16 ? 'r' : 'w');
    }
    printf("\n");
    return failures != 0;
}
