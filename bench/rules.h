/* What the draw and its repetition have in common: limits, names, seals, the sum, the order, and
   reading a file. */
#ifndef RULES_H
#define RULES_H

#include <fcntl.h>
#include <stdbool.h>
#include <stdint.h>
#include <stdio.h>
#include <stdlib.h>
#include <string.h>
#include <sys/stat.h>
#include <unistd.h>

#include "sha256.h"

enum {
    MOST_NAMES = 2000,
    LONGEST_NAME = 64,
    SHORTEST_ROW = 64, /* of a party's bits, in bytes */
    LONGEST_ROW = 8192,
    MOST_PARTIES = 255,
    HASH_BYTES = 32, /* of a hash, and of what a party chooses at will for its seal */
};

struct name {
    const uint8_t *bytes;
    uint8_t length;
};

/* A row before one that it begins; else by the first byte that differs. */
static inline int compare_names(struct name a, struct name b)
{
    int c = memcmp(a.bytes, b.bytes, a.length < b.length ? a.length : b.length);
    return c != 0 ? c : (int)a.length - (int)b.length;
}

static inline void hash_name(struct sha256 *s, struct name name)
{
    sha256_update(s, &name.length, 1);
    sha256_update(s, name.bytes, name.length);
}

/* An opening is 32 bytes chosen at will and then the row of bits. */
static inline bool gives_seal(
    const uint8_t *opening, size_t row, const uint8_t list[HASH_BYTES], uint8_t party, const uint8_t *seal)
{
    struct sha256 s;
    uint8_t digest[HASH_BYTES];
    sha256_start(&s);
    sha256_update(&s, opening, HASH_BYTES);
    sha256_update(&s, list, HASH_BYTES);
    sha256_update(&s, &party, 1);
    sha256_update(&s, opening + HASH_BYTES, row);
    sha256_finish(&s, digest);
    return memcmp(digest, seal, HASH_BYTES) == 0;
}

static inline void add_row(uint8_t *restrict sum, const uint8_t *restrict row, size_t n)
{
    for (size_t i = 0; i < n; i++)
        sum[i] ^= row[i];
}

struct bits {
    const uint8_t *bytes;
    size_t count, at;
};

/* A number below n, or -1 where the bits run out. */
static inline int draw_below(struct bits *bits, unsigned n)
{
    unsigned width = 0;
    while (1u << width < n)
        width++;
    for (;;) {
        if (bits->count - bits->at < width)
            return -1;
        unsigned number = 0;
        for (unsigned i = 0; i < width; i++, bits->at++)
            number = number << 1 | (bits->bytes[bits->at / 8] >> (7 - bits->at % 8) & 1);
        if (number < n)
            return (int)number;
    }
}

/* Fills in the order of n names, or answers false where the bits run out. */
static inline bool draw_order(const uint8_t *sum, size_t bytes, unsigned n, uint16_t *order)
{
    struct bits bits = { sum, bytes * 8, 0 };
    uint16_t left[MOST_NAMES];
    for (unsigned i = 0; i < n; i++)
        left[i] = (uint16_t)i;
    for (unsigned k = 0; k < n; k++) {
        int i = draw_below(&bits, n - k);
        if (i < 0)
            return false;
        order[k] = left[i];
        memmove(left + i, left + i + 1, (n - k - 1 - (unsigned)i) * sizeof *left);
    }
    return true;
}

static inline void print_summary(unsigned names, unsigned parties, unsigned opened, const uint16_t *order)
{
    printf("names %u parties %u opened %u\norder", names, parties, opened);
    if (order == NULL)
        fputs(" none", stdout);
    else
        for (unsigned i = 0; i < names; i++)
            printf(" %u", order[i]);
    putchar('\n');
}

static inline unsigned low_first(const uint8_t *p)
{
    return p[0] | (unsigned)p[1] << 8;
}

/* The whole file, or NULL with the reason in errno. */
static inline uint8_t *read_file(const char *path, size_t *length)
{
    struct stat st;
    int fd = open(path, O_RDONLY);
    if (fd < 0)
        return NULL;
    size_t room = fstat(fd, &st) == 0 && st.st_size > 0 ? (size_t)st.st_size + 1 : 4096;
    uint8_t *bytes = malloc(room);
    for (*length = 0; bytes != NULL;) {
        ssize_t got = read(fd, bytes + *length, room - *length);
        if (got == 0)
            break;
        if (got < 0) {
            free(bytes);
            bytes = NULL;
            break;
        }
        *length += (size_t)got;
        if (*length == room) {
            uint8_t *more = realloc(bytes, room *= 2);
            if (more == NULL)
                free(bytes);
            bytes = more;
        }
    }
    close(fd);
    return bytes;
}

#endif
