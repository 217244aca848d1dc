/* A fair line at the semaphore (document 02, 2.4) over the C interface: two cores without variables whose code is RETURN, so that an exchange is a
 * taking and its release. Prints the semaphore after each step. Build and run it by c/run.sh. */
#include "rikzord.h"

#include <stdio.h>

static const uint8_t task[] = {'M', 'C', 'S', '1', 2, 1, 0, 0, 0, 1, 0, 1, 0, 0, 0, 1, 0, 0, 1, 0, 0, 1, 0, 0};
static const uint8_t trace[] = {1, 0, 0, 0, 0, 0, 1, 0, 0, 0, 0, 0};

static struct rikzord_core table[2];
static struct rikzord_semaphore semaphore;
static uint8_t buffer[2], shared[1024];

static void step(uint8_t core) {
    uint8_t found = 0;
    unsigned number = rikzord_step(task, sizeof task, trace, sizeof trace, table, 2, &semaphore, buffer, 2, shared, 1024, core);
    unsigned next = rikzord_next_core(task, sizeof task, trace, sizeof trace, table, 2, &semaphore, core, &found);
    printf("%u: %u holder %u line", core, number, semaphore.holder);
    for (unsigned i = 0; i < semaphore.waiting && i < sizeof semaphore.line; i++) {
        printf(" %u", semaphore.line[i]);
    }
    printf(" next %u %u\n", next, found);
}

int main(void) {
    static const uint8_t order[] = {0, 1, 1, 0, 0, 0, 1};
    rikzord_fresh(task, sizeof task, table, 2, &semaphore, buffer, 2, shared, 1024);
    for (unsigned i = 0; i < sizeof order; i++) {
        step(order[i]);
    }
    /* a core twice in line, and five in line */
    semaphore.waiting = 2;
    semaphore.line[1] = semaphore.line[0];
    step(0);
    semaphore.waiting = 5;
    step(0);
    return 0;
}
