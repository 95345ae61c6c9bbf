/* Exits with the least prime factor of the first hint word, or with 1 where it has none below 256. */
#include "openvm.h"

static void exit_at_factor(uint32_t number) {
    for (uint32_t factor = 2; factor < 256; factor++) {
        if (number % factor == 0) {
            openvm_exit((int)factor);
        }
    }
}

int main(void) {
    exit_at_factor(openvm_hint());
    return 1;
}
