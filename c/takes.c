/* What a task will take, over C: two cores, the second with a call and a conditional jump; a jump to itself; too few places. */
#include "rikzord.h"
#include <stdio.h>

int main(void) {
    static const uint8_t file[] = {0x4D, 0x43, 0x53, 0x31, 2, 10, 0, 0, 0, 1, 0, 20, 0, 0, 0, 1, 0, 0,
                                   /* RETURN */
                                   1, 0, 0,
                                   /* CALF 3; JZ 0 11; 41 0; RETURN */
                                   12, 0, 5, 3, 0, 2, 0, 0, 11, 0, 41, 0, 0, 0};
    static const uint8_t itself[] = {0x4D, 0x43, 0x53, 0x31, 1, 10, 0, 0, 0, 1, 0, 0, 3, 0, 1, 0, 0};
    size_t lengths[3] = {7, 7, 7};
    uint32_t counts[3] = {8, 8, 8}, depths[3] = {9, 9, 9};
    printf("%d %d\n", rikzord_takes(itself, sizeof itself, lengths, 3, counts, 3, depths, 3), rikzord_takes(file, sizeof file, lengths, 3, counts, 3, depths, 1));
    printf("%d", rikzord_takes(file, sizeof file, lengths, 3, counts, 3, depths, 3));
    for (size_t i = 0; i < 3; i++)
        printf(" %zu", lengths[i]);
    for (size_t i = 0; i < 3; i++)
        printf(" %u/%u", (unsigned)counts[i], (unsigned)depths[i]);
    printf("\n");
    return 0;
}
