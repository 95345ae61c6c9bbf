/* Sums the squares of the numbers below the first hint word. Public: the sum, and its remainder by 1000. */
#include "openvm.h"

int main(void) {
    const uint32_t count = openvm_hint();
    uint32_t sum = 0;
    for (uint32_t i = 0; i < count; i++) {
        sum += i * i;
    }
    openvm_reveal(0, sum);
    openvm_reveal(1, sum % 1000);
    return 0;
}
