/* The small profile over C (document 02, 2.10): each file's number under the full and the small profile, from the check and from the call for the fresh
 * state. RETURN with 1,024 and 1,025 bytes of data; ADD of INT, of LINT and of TIME; a conversion from DINT to REAL. Then a refused call's memory. */
#include "rikzord.h"
#include <stdio.h>
#include <string.h>

static struct rikzord_core table[1];
static struct rikzord_semaphore semaphore;
static uint8_t buffer[1025], shared[1024];

/* a file with one core of this data size, no inputs, no variables, limit 9 */
static size_t file_of(uint8_t *file, unsigned size, const uint8_t *code, size_t length) {
    const uint8_t head[14] = {'M', 'C', 'S', '1', 1, (uint8_t)size, (uint8_t)(size >> 8), 0, 0, 9, 0, 0, (uint8_t)length, 0};
    memcpy(file, head, 14);
    memcpy(file + 14, code, length);
    return 14 + length;
}

static void numbers(unsigned size, const uint8_t *code, size_t length) {
    uint8_t file[64];
    size_t n = file_of(file, size, code, length);
    unsigned full = rikzord_check_file(file, n), small = rikzord_check_file_small(file, n);
    unsigned made = rikzord_fresh(file, n, table, 1, &semaphore, buffer, size, shared, 1024);
    unsigned narrow = rikzord_fresh_small(file, n, table, 1, &semaphore, buffer, size, shared, 1024);
    printf("%u %u, %u %u\n", full, small, made, narrow);
}

int main(void) {
    static const uint8_t end[] = {0}, add[] = {16, 3, 0, 0, 8, 0, 16, 0, 0}, wide[] = {16, 7, 0, 0, 8, 0, 16, 0, 0};
    static const uint8_t time[] = {16, 11, 0, 0, 8, 0, 16, 0, 0}, convert[] = {43, 5, 9, 0, 0, 8, 0, 0};
    numbers(1024, end, sizeof end);
    numbers(1025, end, sizeof end);
    numbers(64, add, sizeof add);
    numbers(64, wide, sizeof wide);
    numbers(64, time, sizeof time);
    numbers(64, convert, sizeof convert);
    uint8_t file[64];
    size_t n = file_of(file, 64, wide, sizeof wide);
    memset(table, 0xA5, sizeof table);
    memset(&semaphore, 0xA5, sizeof semaphore);
    memset(buffer, 0xA5, sizeof buffer);
    memset(shared, 0xA5, sizeof shared);
    unsigned refused = rikzord_fresh_small(file, n, table, 1, &semaphore, buffer, 64, shared, 1024);
    unsigned too_short = rikzord_fresh_small(file, n, table, 0, &semaphore, buffer, 64, shared, 1024);
    printf("%u %u %x %x %x %x\n", refused, too_short, table[0].mode, semaphore.holder, buffer[0], shared[1023]);
    return 0;
}
