/* SHA-256 (FIPS 180-4) in plain C: a message is taken in parts, and finished once. */
#ifndef SHA256_H
#define SHA256_H

#include <stdint.h>
#include <string.h>

struct sha256 {
    uint32_t state[8];
    uint64_t total; /* bytes taken so far */
    uint8_t block[64];
};

static const uint32_t sha256_constants[64] = {
    0x428a2f98, 0x71374491, 0xb5c0fbcf, 0xe9b5dba5, 0x3956c25b, 0x59f111f1, 0x923f82a4, 0xab1c5ed5,
    0xd807aa98, 0x12835b01, 0x243185be, 0x550c7dc3, 0x72be5d74, 0x80deb1fe, 0x9bdc06a7, 0xc19bf174,
    0xe49b69c1, 0xefbe4786, 0x0fc19dc6, 0x240ca1cc, 0x2de92c6f, 0x4a7484aa, 0x5cb0a9dc, 0x76f988da,
    0x983e5152, 0xa831c66d, 0xb00327c8, 0xbf597fc7, 0xc6e00bf3, 0xd5a79147, 0x06ca6351, 0x14292967,
    0x27b70a85, 0x2e1b2138, 0x4d2c6dfc, 0x53380d13, 0x650a7354, 0x766a0abb, 0x81c2c92e, 0x92722c85,
    0xa2bfe8a1, 0xa81a664b, 0xc24b8b70, 0xc76c51a3, 0xd192e819, 0xd6990624, 0xf40e3585, 0x106aa070,
    0x19a4c116, 0x1e376c08, 0x2748774c, 0x34b0bcb5, 0x391c0cb3, 0x4ed8aa4a, 0x5b9cca4f, 0x682e6ff3,
    0x748f82ee, 0x78a5636f, 0x84c87814, 0x8cc70208, 0x90befffa, 0xa4506ceb, 0xbef9a3f7, 0xc67178f2,
};

#define SHA256_ROTATE(x, n) ((x) >> (n) | (x) << (32 - (n)))
#define SHA256_SMALL_0(x) (SHA256_ROTATE(x, 7) ^ SHA256_ROTATE(x, 18) ^ (x) >> 3)
#define SHA256_SMALL_1(x) (SHA256_ROTATE(x, 17) ^ SHA256_ROTATE(x, 19) ^ (x) >> 10)

/* Round t over the eight words, whose names go round by one from each round to the next. */
#define SHA256_ROUND(a, b, c, d, e, f, g, h, t)                                                    \
    do {                                                                                           \
        uint32_t first = (h) + (SHA256_ROTATE(e, 6) ^ SHA256_ROTATE(e, 11) ^ SHA256_ROTATE(e, 25)) \
            + ((g) ^ ((e) & ((f) ^ (g)))) + sha256_constants[t] + w[(t) & 15];                     \
        uint32_t second = (SHA256_ROTATE(a, 2) ^ SHA256_ROTATE(a, 13) ^ SHA256_ROTATE(a, 22))      \
            + (((a) & (b)) | ((c) & ((a) | (b))));                                                 \
        (d) += first;                                                                              \
        (h) = first + second;                                                                      \
    } while (0)

#define SHA256_EIGHT_ROUNDS(t)                          \
    SHA256_ROUND(a, b, c, d, e, f, g, h, (t) + 0);      \
    SHA256_ROUND(h, a, b, c, d, e, f, g, (t) + 1);      \
    SHA256_ROUND(g, h, a, b, c, d, e, f, (t) + 2);      \
    SHA256_ROUND(f, g, h, a, b, c, d, e, (t) + 3);      \
    SHA256_ROUND(e, f, g, h, a, b, c, d, (t) + 4);      \
    SHA256_ROUND(d, e, f, g, h, a, b, c, (t) + 5);      \
    SHA256_ROUND(c, d, e, f, g, h, a, b, (t) + 6);      \
    SHA256_ROUND(b, c, d, e, f, g, h, a, (t) + 7)

static inline uint32_t sha256_word(const uint8_t *p)
{
    return (uint32_t)p[0] << 24 | (uint32_t)p[1] << 16 | (uint32_t)p[2] << 8 | p[3];
}

static inline void sha256_blocks(uint32_t state[8], const uint8_t *p, size_t blocks)
{
    for (; blocks > 0; blocks--, p += 64) {
        uint32_t w[16];
        for (int t = 0; t < 16; t++)
            w[t] = sha256_word(p + 4 * t);
        uint32_t a = state[0], b = state[1], c = state[2], d = state[3];
        uint32_t e = state[4], f = state[5], g = state[6], h = state[7];
        SHA256_EIGHT_ROUNDS(0);
        SHA256_EIGHT_ROUNDS(8);
        for (int t = 16; t < 64; t += 16) {
            for (int i = 0; i < 16; i++)
                w[i] += SHA256_SMALL_0(w[(i + 1) & 15]) + w[(i + 9) & 15] + SHA256_SMALL_1(w[(i + 14) & 15]);
            SHA256_EIGHT_ROUNDS(t);
            SHA256_EIGHT_ROUNDS(t + 8);
        }
        state[0] += a;
        state[1] += b;
        state[2] += c;
        state[3] += d;
        state[4] += e;
        state[5] += f;
        state[6] += g;
        state[7] += h;
    }
}

static inline void sha256_start(struct sha256 *s)
{
    static const uint32_t start[8] = {
        0x6a09e667, 0xbb67ae85, 0x3c6ef372, 0xa54ff53a, 0x510e527f, 0x9b05688c, 0x1f83d9ab, 0x5be0cd19,
    };
    memcpy(s->state, start, sizeof start);
    s->total = 0;
}

static inline void sha256_update(struct sha256 *s, const uint8_t *p, size_t n)
{
    size_t fill = s->total % 64;
    s->total += n;
    if (fill > 0) {
        size_t part = n < 64 - fill ? n : 64 - fill;
        memcpy(s->block + fill, p, part);
        if (fill + part < 64)
            return;
        sha256_blocks(s->state, s->block, 1);
        p += part;
        n -= part;
    }
    sha256_blocks(s->state, p, n / 64);
    memcpy(s->block, p + n / 64 * 64, n % 64);
}

static inline void sha256_finish(struct sha256 *s, uint8_t digest[32])
{
    uint8_t tail[72] = { 0x80 };
    uint64_t bits = s->total * 8;
    size_t zeros = (119 - s->total % 64) % 64; /* after the byte 0x80, up to the length */
    for (int i = 0; i < 8; i++)
        tail[1 + zeros + i] = (uint8_t)(bits >> (56 - 8 * i));
    sha256_update(s, tail, 1 + zeros + 8);
    for (int i = 0; i < 8; i++)
        for (int j = 0; j < 4; j++)
            digest[4 * i + j] = (uint8_t)(s->state[i] >> (24 - 8 * j));
}

#endif
