/* Rerun from the order of takings over C (document 02, 2.13): document 01's listing from its order list; then two cores, of which core 0 has two records and
 * publishes NOT of what it reads, and core 1 has one record and is stopped by its limit of one instruction. A line has the refusal number, mode, cycles, flags
 * and instruction count of the first two records, the semaphore's holder and how many are in line, the data buffer, the first shared bytes, and the mode of
 * the third record. All is lent with 9 in every byte, so that a refused call prints nines. */
#include "rikzord.h"
#include <stdio.h>
#include <string.h>

static const uint8_t listing[] = {'M', 'C', 'S', '1', 1, 1, 0, 0, 0, 1, 0, 0, 1, 0, 0};
static const uint8_t record[] = {1, 0, 0, 0, 0, 0};

static const uint8_t two[] = {'M', 'C', 'S', '1', 2, 4, 0, 0, 0, 3, 0, 4, 0, 1, 0, 1, 0, 2,  0, 0, 1, 0x21, 1, 0, 1, 0, 0, 0, 0, 0,
                              1,   0,   1,   0x12, 2, 0, 2, 0, 0, 0, 0, 0, 7, 0, 27, 0, 1, 0, 2, 0, 0, 3, 0, 1, 0, 0};
static const uint8_t trace[] = {2, 0, 0, 0, 0, 0, 0, 0, 0, 0, 1, 0, 42, 0, 0, 0, 5};

static void rerun(const uint8_t *file, size_t file_length, const uint8_t *inputs, size_t inputs_length, const uint8_t *list, size_t list_length,
                  size_t records, size_t data) {
    struct rikzord_core table[3];
    struct rikzord_semaphore semaphore;
    uint8_t buffer[8], shared[1024];
    memset(table, 9, sizeof table);
    memset(&semaphore, 9, sizeof semaphore);
    memset(buffer, 9, sizeof buffer);
    memset(shared, 9, sizeof shared);
    printf("%u", rikzord_rerun(file, file_length, inputs, inputs_length, list, list_length, table, records, &semaphore, buffer, data, shared, 1024));
    for (int k = 0; k < 2; k++) {
        printf(" ; %u %u %u %u", table[k].mode, table[k].cycles, table[k].flags, table[k].count);
    }
    printf(" ; %u %u ;", semaphore.holder, semaphore.waiting);
    for (int i = 0; i < 8; i++) {
        printf(" %u", buffer[i]);
    }
    printf(" ; %u %u ; %u\n", shared[0], shared[1], table[2].mode);
}

static void on_two(const uint8_t *list, size_t list_length, size_t trace_length, size_t records) {
    rerun(two, sizeof two, trace, trace_length, list, list_length, records, 8);
}

int main(void) {
    static const uint8_t once[] = {0, 16}, all[] = {0, 16, 1, 0, 16}, other[] = {1, 0, 16, 0, 16}, twice[] = {0, 0}, stopped[] = {1, 17}, unnamed[] = {0, 32};
    rerun(listing, sizeof listing, record, sizeof record, once, sizeof once, 1, 1);
    on_two(all, 0, sizeof trace, 3);
    on_two(all, 1, sizeof trace, 3);
    on_two(all, sizeof all, sizeof trace, 3);
    on_two(other, sizeof other, sizeof trace, 2);
    /* no order of steps produces these; then each refusal with every later one */
    on_two(twice, sizeof twice, sizeof trace, 2);
    on_two(stopped, sizeof stopped, sizeof trace, 2);
    on_two(unnamed, sizeof unnamed, sizeof trace, 2);
    on_two(twice, sizeof twice, 1, 2);
    on_two(twice, sizeof twice, 1, 1);
    rerun(two, sizeof two - 1, trace, 1, twice, sizeof twice, 1, 7);
    return 0;
}
