/* The memory window over C (document 02, 2.14): an operand of core 1, shown where it stands in the file; then the numbers of a window past the data,
 * of a core that is not there, and of a data buffer of another size, each with the place left as it was. */
#include "rikzord.h"
#include <stdio.h>

static const uint8_t file[] = {0x4D, 0x43, 0x53, 0x31, 2, 3, 0, 0, 0, 1, 0, 5, 0, 0, 0, 1, 0, 0, 1, 0, 0, 6, 0, 6, 'a', 'a', 1, 'z', 0};

int main(void) {
    static const uint8_t buffer[9] = "abcdefgh";
    size_t place = 77;
    uint8_t number = rikzord_code_window(file, sizeof file, buffer, 8, 1, 1, 2, &place);
    printf("%u %.2s\n", (unsigned)number, (const char *)(file + place));
    number = rikzord_data_window(file, sizeof file, buffer, 8, 1, 1, 2, &place);
    printf("%u %.2s\n", (unsigned)number, (const char *)(buffer + place));
    place = 77;
    unsigned past = rikzord_data_window(file, sizeof file, buffer, 8, 0, 3, 1, &place);
    unsigned core = rikzord_code_window(file, sizeof file, buffer, 8, 2, 0, 0, &place);
    unsigned lent = rikzord_code_window(file, sizeof file, buffer, 7, 2, 0, 0, &place);
    printf("%u %u %u %zu\n", past, core, lent, place);
    return 0;
}
