/* Start values over C (document 02, 2.12): the fresh state of two cores of which the second reads what the first writes; then the two converters, both ways, and
 * their numbers: a file already in the form that is made, one with start values sent back, an output too short. */
#include "rikzord.h"
#include <stdio.h>
#include <string.h>

/* core 0 writes the word at its place 2 to shared place 10, core 1 reads it to its place 4; both codes are RETURN */
#define SECTIONS 2, 6, 0, 1, 0, 9, 0, 8, 0, 0, 0, 9, 0, 1, 10, 0, 2, 0x21, 2, 0, 4, 0, 0, 0, 0, 0, 1, 0, 0, 1, 0, 0

static const uint8_t old_file[] = {0x4D, 0x43, 0x53, 0x31, SECTIONS};
static const uint8_t with_values[] = {0x4D, 0x43, 0x53, 0x32, SECTIONS, 2, 0, 2, 0, 0x2C, 3, 0, 1, 1, 0, 7, 0, 8};

int main(void) {
    static struct rikzord_core table[2];
    static struct rikzord_semaphore semaphore;
    static uint8_t buffer[14], shared[1024];
    memset(buffer, 0xEE, sizeof buffer);
    memset(shared, 0xEE, sizeof shared);
    unsigned number = rikzord_fresh(with_values, sizeof with_values, table, 2, &semaphore, buffer, sizeof buffer, shared, sizeof shared);
    printf("%u data", number);
    for (size_t i = 0; i < sizeof buffer; i++) {
        printf(" %u", (unsigned)buffer[i]);
    }
    printf(" shared %u %u %u %u\n", (unsigned)shared[9], (unsigned)shared[10], (unsigned)shared[11], (unsigned)shared[12]);
    uint8_t made[64], back[64];
    size_t length = 77, again = 77;
    memset(made, 0xAB, sizeof made);
    number = rikzord_to_new(old_file, sizeof old_file, made, sizeof made, &length);
    printf("%u %zu %x %x\n", number, length, (unsigned)made[3], (unsigned)made[length]);
    number = rikzord_to_old(made, length, back, sizeof back, &again);
    printf("%u %zu %d\n", number, again, memcmp(back, old_file, sizeof old_file));
    length = 77;
    unsigned already = rikzord_to_old(old_file, sizeof old_file, made, sizeof made, &length);
    unsigned valued = rikzord_to_old(with_values, sizeof with_values, made, sizeof made, &length);
    unsigned short_by_one = rikzord_to_new(old_file, sizeof old_file, made, sizeof old_file + 3, &length);
    printf("%u %u %u %zu\n", already, valued, short_by_one, length);
    return 0;
}
