/* What the programs of limits share: a line for each case, and the row that refuses a call. */
#ifndef LIMITS_H
#define LIMITS_H

#include <inttypes.h>
#include <stdio.h>

#include "nidskalm.h"

#define LENGTH(list) (sizeof(list) / sizeof *(list))

/* What was tried, and a number. */
static void say(const char *name, uint64_t number) {
    printf("%s: %" PRIu64 "\n", name, number);
}

/* The row that refuses. A refused call's value is 0; another one shows. */
static uint64_t row(nidskalm_reply reply) {
    return reply.refusal + 1000 * reply.value;
}

/* The same number at every place. */
static void fill(uint32_t *list, size_t length, uint32_t number) {
    for (size_t i = 0; i < length; i++) {
        list[i] = number;
    }
}

#endif
