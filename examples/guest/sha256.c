/* The SHA-256 digest of a hint message. Hints: the message's length in bytes, then the message, filled up to whole
   words. The program pads, and each block is one instruction. Public: the digest, its first byte first. */
#include "memory.h"
#include "openvm.h"

#define LONGEST 4096

/* The message, behind it 0x80, zeros and its length in bits. */
static uint32_t message[(LONGEST + 72) / 4];

static const uint32_t initial_state[8] = {
    0x6a09e667, 0xbb67ae85, 0x3c6ef372, 0xa54ff53a, 0x510e527f, 0x9b05688c, 0x1f83d9ab, 0x5be0cd19,
};

static uint32_t big_endian(uint32_t word) {
    return word << 24 | (word & 0xff00) << 8 | (word >> 8 & 0xff00) | word >> 24;
}

/* Pads the message, and gives the number of its blocks. */
static size_t pad(size_t length) {
    unsigned char *bytes = (unsigned char *)message;
    const size_t blocks = (length + 9 + 63) / 64;
    memset(bytes + length, 0, 64 * blocks - length);
    bytes[length] = 0x80;
    message[16 * blocks - 2] = big_endian((uint32_t)(length >> 29));
    message[16 * blocks - 1] = big_endian((uint32_t)(length << 3));
    return blocks;
}

int main(void) {
    const size_t length = openvm_hint();
    if (length > LONGEST) {
        return 1;
    }
    openvm_hints(message, (length + 3) / 4);
    const size_t blocks = pad(length);
    uint32_t state[8];
    memcpy(state, initial_state, sizeof state);
    for (size_t i = 0; i < blocks; i++) {
        openvm_sha256_block(state, message + 16 * i);
    }
    for (size_t i = 0; i < 8; i++) {
        openvm_reveal(i, big_endian(state[i]));
    }
    return 0;
}
