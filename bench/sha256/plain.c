/* SHA-256 in plain C, to compare the speed with: no intrinsics, no assembly, as the standard puts it.
   Hashes COUNT messages of SIZE bytes, at most 8 KiB, each but the first beginning with the hash of the one before, and prints the last hash. */
#include <stdint.h>
#include <stdio.h>
#include <stdlib.h>
#include <string.h>

#include "../sha256.h" /* for its table of constants alone */

static const uint32_t initial[8] = {
    0x6a09e667, 0xbb67ae85, 0x3c6ef372, 0xa54ff53a, 0x510e527f, 0x9b05688c, 0x1f83d9ab, 0x5be0cd19,
};

typedef struct {
    uint32_t state[8];
    uint8_t pending[64];
    uint64_t total;
} hasher;

static inline uint32_t rotr(uint32_t x, int n) { return (x >> n) | (x << (32 - n)); }

static void compress(hasher *s, const uint8_t *p) {
    uint32_t w[64];
    for (int i = 0; i < 16; i++)
        w[i] = (uint32_t)p[4 * i] << 24 | (uint32_t)p[4 * i + 1] << 16 | (uint32_t)p[4 * i + 2] << 8 | p[4 * i + 3];
    for (int i = 16; i < 64; i++) {
        uint32_t s0 = rotr(w[i - 15], 7) ^ rotr(w[i - 15], 18) ^ (w[i - 15] >> 3);
        uint32_t s1 = rotr(w[i - 2], 17) ^ rotr(w[i - 2], 19) ^ (w[i - 2] >> 10);
        w[i] = w[i - 16] + s0 + w[i - 7] + s1;
    }
    uint32_t a = s->state[0], b = s->state[1], c = s->state[2], d = s->state[3];
    uint32_t e = s->state[4], f = s->state[5], g = s->state[6], h = s->state[7];
    for (int i = 0; i < 64; i++) {
        uint32_t t1 = h + (rotr(e, 6) ^ rotr(e, 11) ^ rotr(e, 25)) + ((e & f) ^ (~e & g)) + sha256_constants[i] + w[i];
        uint32_t t2 = (rotr(a, 2) ^ rotr(a, 13) ^ rotr(a, 22)) + ((a & b) ^ (a & c) ^ (b & c));
        h = g; g = f; f = e; e = d + t1;
        d = c; c = b; b = a; a = t1 + t2;
    }
    s->state[0] += a; s->state[1] += b; s->state[2] += c; s->state[3] += d;
    s->state[4] += e; s->state[5] += f; s->state[6] += g; s->state[7] += h;
}

static void start(hasher *s) {
    memcpy(s->state, initial, sizeof initial);
    s->total = 0;
}

static void update(hasher *s, const uint8_t *p, size_t n) {
    size_t fill = s->total & 63;
    s->total += n;
    if (fill) {
        size_t room = 64 - fill;
        if (n < room) { memcpy(s->pending + fill, p, n); return; }
        memcpy(s->pending + fill, p, room);
        compress(s, s->pending);
        p += room; n -= room;
    }
    for (; n >= 64; p += 64, n -= 64) compress(s, p);
    memcpy(s->pending, p, n);
}

static void finish(hasher *s, uint8_t out[32]) {
    uint64_t bits = s->total * 8;
    uint8_t tail[72] = {0x80};
    size_t zeros = (119 - s->total % 64) % 64;
    for (int i = 0; i < 8; i++) tail[1 + zeros + i] = bits >> (56 - 8 * i);
    update(s, tail, zeros + 9);
    for (int i = 0; i < 32; i++) out[i] = s->state[i / 4] >> (24 - 8 * (i % 4));
}

int main(int argc, char **argv) {
    static uint8_t message[8192];
    uint8_t hash[32] = {0};
    unsigned long long count = argc > 1 ? strtoull(argv[1], NULL, 10) : 16;
    size_t size = argc > 2 ? strtoull(argv[2], NULL, 10) : sizeof message;
    memset(message, 97, sizeof message);
    for (unsigned long long i = 0; i < count; i++) {
        hasher s;
        start(&s);
        update(&s, message, size);
        finish(&s, hash);
        memcpy(message, hash, sizeof hash);
    }
    for (int i = 0; i < 32; i++) printf("%02x", hash[i]);
    puts("");
    return 0;
}
