/* The words on custom-0 of the machine that openvm runs. */
#ifndef OPENVM_H
#define OPENVM_H

#include <stddef.h>
#include <stdint.h>

/* How many words a program can make public. */
#define OPENVM_PUBLIC_WORDS 16

/* The next four hint bytes, the first one lowest. The run traps as hints-end where fewer are left. */
static inline uint32_t openvm_hint(void) {
    uint32_t word;
    __asm__ volatile(".insn i 0x0b, 1, %0, x0, 0" : : "r"(&word) : "memory");
    return word;
}

/* Puts the next 4 * count hint bytes into words. */
static inline void openvm_hints(uint32_t *words, size_t count) {
    for (size_t i = 0; i < count; i++) {
        __asm__ volatile(".insn i 0x0b, 1, %0, x0, 0" : : "r"(words + i) : "memory");
    }
}

/* Makes a word public as the four public bytes from 4 * place on, its lowest byte first. The place is below 16. */
static inline void openvm_reveal(size_t place, uint32_t word) {
    __asm__ volatile(".insn i 0x0b, 2, %0, %1, 0" : : "r"(4 * place), "r"(word) : "memory");
}

/* Replaces a SHA-256 state of eight words by its compression with a block of 64 bytes. Both are aligned to words. */
static inline void openvm_sha256_block(uint32_t state[8], const uint32_t block[16]) {
    __asm__ volatile(".insn r 0x0b, 4, 1, %0, %1, x0" : : "r"(state), "r"(block) : "memory");
}

/* Ends the run with the low byte of a code. */
_Noreturn void openvm_exit(int code);

#endif
