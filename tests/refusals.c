/* Prints the words of every refusal, and of numbers that are no row's. */
#include <inttypes.h>
#include <stdio.h>

#include "nidskalm.h"

int main(void) {
    for (uint64_t row = 0; row < 64; row++) printf("%" PRIu64 ": %s\n", row, nidskalm_refusal(row));
    printf("%" PRIu64 ": %s\n", UINT64_MAX, nidskalm_refusal(UINT64_MAX));
    return 0;
}
