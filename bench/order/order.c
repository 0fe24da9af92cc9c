/* The order of n names from the bits of bytes, in plain C: the same draws as crates/order_bench, to compare its time with.
   A bit reader keeps up to 64 bits in a word; the names left stand in a row, and the one drawn is taken out by memmove. */
#include <stdbool.h>
#include <stddef.h>
#include <stdint.h>
#include <stdio.h>
#include <stdlib.h>
#include <string.h>

enum { NAMES = 1400, BYTES = 8192 };

struct reader {
    const uint8_t *next, *end;
    uint64_t word;
    unsigned held;
    size_t used;
};

static bool read_bits(struct reader *r, unsigned w, uint32_t *value) {
    while (r->held < w) {
        if (r->next == r->end) return false;
        r->word = r->word << 8 | *r->next++;
        r->held += 8;
    }
    r->held -= w;
    r->used += w;
    *value = (uint32_t)(r->word >> r->held) & ((1u << w) - 1);
    return true;
}

static bool draw_below(struct reader *r, uint32_t n, uint32_t *value) {
    unsigned w = n == 1 ? 0 : 32 - (unsigned)__builtin_clz(n - 1);
    do {
        if (!read_bits(r, w, value)) return false;
    } while (*value >= n);
    return true;
}

/* The bits used, or 0 where they ran out. */
static size_t draw_order(uint16_t *order, size_t n, const uint8_t *bytes, size_t length) {
    static uint16_t left[65536];
    struct reader r = {bytes, bytes + length, 0, 0, 0};
    for (size_t i = 0; i < n; i++) left[i] = (uint16_t)i;
    for (size_t i = 0; i < n; i++) {
        uint32_t k;
        if (!draw_below(&r, (uint32_t)(n - i), &k)) return 0;
        order[i] = left[k];
        memmove(left + k, left + k + 1, (n - i - k - 1) * sizeof *left);
    }
    return r.used;
}

int main(int argc, char **argv) {
    unsigned times = argc > 1 ? (unsigned)strtoul(argv[1], NULL, 10) : 100;
    static uint8_t bytes[BYTES];
    static uint16_t order[NAMES];
    uint64_t state = 1, sum = 0;
    for (size_t i = 0; i < BYTES; i++) {
        state = state * 6364136223846793005u + 1442695040888963407u;
        bytes[i] = (uint8_t)(state >> 56);
    }
    for (unsigned i = 0; i < times; i++) {
        uint64_t used = draw_order(order, NAMES, bytes, BYTES);
        uint64_t ends = (uint64_t)order[0] + order[NAMES - 1];
        bytes[ends & 8191] ^= 90;
        sum = sum * 31 + used + order[700] + ends;
    }
    printf("%u orders, sum %llu\n", times, (unsigned long long)sum);
    return 0;
}
