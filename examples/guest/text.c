/* Prints a text into the public bytes: "N! = .." for the first hint word N, which is at most 12. */
#include "openvm.h"

/* The public bytes as text that grows at its end; what doesn't fit is dropped. */
static union {
    char text[4 * OPENVM_PUBLIC_WORDS];
    uint32_t words[OPENVM_PUBLIC_WORDS];
} public;
static size_t length;

static void print(const char *text) {
    for (; *text != '\0' && length < sizeof public.text; text++) {
        public.text[length++] = *text;
    }
}

static void print_number(uint32_t number) {
    char digits[11];
    size_t at = sizeof digits - 1;
    digits[at] = '\0';
    do {
        digits[--at] = (char)('0' + number % 10);
        number /= 10;
    } while (number > 0);
    print(digits + at);
}

int main(void) {
    const uint32_t number = openvm_hint();
    uint32_t factorial = 1;
    for (uint32_t i = 2; i <= number; i++) {
        factorial *= i;
    }
    print_number(number);
    print("! = ");
    print_number(factorial);
    for (size_t i = 0; i < OPENVM_PUBLIC_WORDS; i++) {
        openvm_reveal(i, public.words[i]);
    }
    return 0;
}
