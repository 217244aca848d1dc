/* A program to start from: the fresh state and five steps of one core, document 01's listing. */
#include <rikzord.h>
#include <stdio.h>

int main(void) {
    static const uint8_t file[] = {0x4D, 0x43, 0x53, 0x31, 1, 1, 0, 0, 0, 1, 0, 0, 1, 0, 0}, trace[] = {1, 0, 0, 0, 0, 0}, order[5] = {0, 0, 0, 0, 0};
    struct rikzord_core table[1];
    struct rikzord_semaphore semaphore;
    uint8_t buffer[1], shared[RIKZORD_SHARED_SIZE], list[sizeof order];
    size_t taken = 0;
    uint8_t refused = rikzord_fresh(file, sizeof file, table, 1, &semaphore, buffer, sizeof buffer, shared, sizeof shared);
    if (!refused)
        refused = rikzord_run(file, sizeof file, trace, sizeof trace, table, 1, &semaphore, buffer, sizeof buffer, shared, sizeof shared, order,
                              sizeof order, list, sizeof list, &taken);
    printf("refused %d; core 0 in mode %d, cycles complete %d, takings %d\n", refused, table[0].mode, table[0].cycles, (int)taken);
    return refused;
}
