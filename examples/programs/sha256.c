/* Shows the SHA-256 digest of its input, as sha256sum(1) does. FIPS 180-4 has the function and its words. */
#include "calls.h"

enum { BLOCK = 64, WORDS = 8, ROUNDS = 64, LENGTH_AT = BLOCK - 8, BUFFER = 64 * BLOCK };

typedef unsigned int word;
typedef unsigned char byte;

static const word constants[ROUNDS] = {
    0x428a2f98, 0x71374491, 0xb5c0fbcf, 0xe9b5dba5, 0x3956c25b, 0x59f111f1, 0x923f82a4, 0xab1c5ed5,
    0xd807aa98, 0x12835b01, 0x243185be, 0x550c7dc3, 0x72be5d74, 0x80deb1fe, 0x9bdc06a7, 0xc19bf174,
    0xe49b69c1, 0xefbe4786, 0x0fc19dc6, 0x240ca1cc, 0x2de92c6f, 0x4a7484aa, 0x5cb0a9dc, 0x76f988da,
    0x983e5152, 0xa831c66d, 0xb00327c8, 0xbf597fc7, 0xc6e00bf3, 0xd5a79147, 0x06ca6351, 0x14292967,
    0x27b70a85, 0x2e1b2138, 0x4d2c6dfc, 0x53380d13, 0x650a7354, 0x766a0abb, 0x81c2c92e, 0x92722c85,
    0xa2bfe8a1, 0xa81a664b, 0xc24b8b70, 0xc76c51a3, 0xd192e819, 0xd6990624, 0xf40e3585, 0x106aa070,
    0x19a4c116, 0x1e376c08, 0x2748774c, 0x34b0bcb5, 0x391c0cb3, 0x4ed8aa4a, 0x5b9cca4f, 0x682e6ff3,
    0x748f82ee, 0x78a5636f, 0x84c87814, 0x8cc70208, 0x90befffa, 0xa4506ceb, 0xbef9a3f7, 0xc67178f2,
};

static word state[WORDS] = {
    0x6a09e667, 0xbb67ae85, 0x3c6ef372, 0xa54ff53a, 0x510e527f, 0x9b05688c, 0x1f83d9ab, 0x5be0cd19,
};

static word rotated(word n, int bits) { return n >> bits | n << (32 - bits); }

/* The words that the rounds of a block add: its own sixteen, and what is made of them. */
static void schedule(const byte *block, word *words)
{
    for (int k = 0; k < 16; k++)
        words[k] = (word)block[4 * k] << 24 | (word)block[4 * k + 1] << 16 | (word)block[4 * k + 2] << 8 | block[4 * k + 3];
    for (int k = 16; k < ROUNDS; k++) {
        word early = words[k - 15], late = words[k - 2];
        early = rotated(early, 7) ^ rotated(early, 18) ^ early >> 3;
        late = rotated(late, 17) ^ rotated(late, 19) ^ late >> 10;
        words[k] = words[k - 16] + early + words[k - 7] + late;
    }
}

static void add_block(const byte *block)
{
    word words[ROUNDS];
    word a = state[0], b = state[1], c = state[2], d = state[3];
    word e = state[4], f = state[5], g = state[6], h = state[7];
    schedule(block, words);
    for (int k = 0; k < ROUNDS; k++) {
        word chosen = rotated(e, 6) ^ rotated(e, 11) ^ rotated(e, 25);
        word most = rotated(a, 2) ^ rotated(a, 13) ^ rotated(a, 22);
        chosen += h + ((e & f) ^ (~e & g)) + constants[k] + words[k];
        most += (a & b) ^ (a & c) ^ (b & c);
        h = g, g = f, f = e, e = d + chosen;
        d = c, c = b, b = a, a = chosen + most;
    }
    state[0] += a, state[1] += b, state[2] += c, state[3] += d;
    state[4] += e, state[5] += f, state[6] += g, state[7] += h;
}

/* Adds the bytes behind the last whole block: a one bit, zeros, and the number of all bits. */
static void add_end(const byte *rest, long n, unsigned long size)
{
    byte block[BLOCK];
    for (int k = 0; k < BLOCK; k++)
        block[k] = k < n ? rest[k] : k == n ? 0x80 : 0;
    if (n >= LENGTH_AT) {
        add_block(block);
        for (int k = 0; k < BLOCK; k++)
            block[k] = 0;
    }
    for (int k = 0; k < 8; k++)
        block[LENGTH_AT + k] = 8 * size >> (56 - 8 * k);
    add_block(block);
}

static void show(void)
{
    char text[8 * WORDS + 1];
    for (int k = 0; k < 8 * WORDS; k++)
        text[k] = "0123456789abcdef"[state[k / 8] >> (28 - k % 8 * 4) & 15];
    text[8 * WORDS] = '\n';
    put(1, text, sizeof text);
}

int main(void)
{
    static byte buffer[BUFFER];
    unsigned long size = 0;
    long n = 0, more;
    while ((more = read(0, buffer + n, BUFFER - n)) > 0) {
        size += more;
        n += more;
        long done = 0;
        for (; n - done >= BLOCK; done += BLOCK)
            add_block(buffer + done);
        /* What is left goes to the front, less than a block. */
        n -= done;
        for (long k = 0; k < n; k++)
            buffer[k] = buffer[done + k];
    }
    if (more < 0)
        return 1;
    add_end(buffer, n, size);
    show();
    return 0;
}
