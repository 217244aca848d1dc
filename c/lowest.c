/* The lowest reading over the holding time, over C: three records of a second each, and the three numbers that turn a run away. */
#include "rikzord.h"
#include <stdio.h>

int main(void) {
    /* 0 s, 74.0; 1 s, 71.9; 2 s, 73.0 degrees */
    static const uint8_t run[18] = {0, 0, 0, 0, 0xE4, 2, 0xE8, 3, 0, 0, 0xCF, 2, 0xD0, 7, 0, 0, 0xDA, 2};
    uint8_t answers[8] = {0xAA, 0xAA, 0xAA, 0xAA, 0xAA, 0xAA, 0xAA, 0xAA};
    printf("%d", rikzord_lowest(run, sizeof run, 1000, answers, sizeof answers));
    for (size_t i = 0; i < sizeof answers; i++)
        printf(" %02x", answers[i]);
    printf("\n%d %d %d\n", rikzord_lowest(run, sizeof run, 0, answers, sizeof answers), rikzord_lowest(run, sizeof run, 1000, answers, 5),
           rikzord_lowest(run, sizeof run - 1, 1000, answers, sizeof answers));
    return 0;
}
