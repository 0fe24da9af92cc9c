/* draw STEPS [PROTOCOL]: runs a draw from a file of steps. The yardstick for the proved program:
   the same draw as one would write it in C. */
#include <errno.h>

#include "rules.h"

enum phase { LIST, SEALS, OPENINGS, OVER };

struct refusal {
    unsigned number; /* 0 for a step that is taken */
    size_t place;
};

struct draw {
    enum phase phase;
    unsigned names;
    struct name name[MOST_NAMES];   /* as they came */
    uint16_t sorted[MOST_NAMES];    /* their numbers, by name */
    uint8_t list_hash[HASH_BYTES];
    size_t row; /* bytes of a party's bits */
    unsigned parties, opened;
    const uint8_t *seal[MOST_PARTIES];
    const uint8_t *opening[MOST_PARTIES]; /* NULL until opened */
    uint8_t sum[LONGEST_ROW];
};

static const struct refusal taken = { 0, 0 };

static struct refusal refuse(unsigned number, size_t place)
{
    return (struct refusal){ number, place };
}

/* Finds a name's place in the list; answers whether it is there. */
static bool find(const struct draw *d, struct name name, unsigned *place)
{
    unsigned low = 0, high = d->names;
    while (low < high) {
        unsigned middle = (low + high) / 2;
        int c = compare_names(name, d->name[d->sorted[middle]]);
        if (c == 0)
            return true;
        if (c < 0)
            high = middle;
        else
            low = middle + 1;
    }
    *place = low;
    return false;
}

static struct refusal entry(struct draw *d, const uint8_t *p, size_t n)
{
    unsigned place = 0;
    if (n < 1 || n > LONGEST_NAME)
        return refuse(1, n);
    struct name name = { p, (uint8_t)n };
    if (find(d, name, &place) || d->names == MOST_NAMES)
        return refuse(2, 0);
    if (d->phase != LIST)
        return refuse(3, 0);
    memmove(d->sorted + place + 1, d->sorted + place, (d->names - place) * sizeof *d->sorted);
    d->sorted[place] = (uint16_t)d->names;
    d->name[d->names++] = name;
    return taken;
}

static struct refusal close_list(struct draw *d, const uint8_t *p, size_t n)
{
    if (d->phase != LIST)
        return refuse(3, 0);
    if (n != 2 || low_first(p) < SHORTEST_ROW || low_first(p) > LONGEST_ROW)
        return refuse(4, 0);
    if (d->names == 0)
        return refuse(9, 0);
    struct sha256 s;
    sha256_start(&s);
    for (unsigned i = 0; i < d->names; i++)
        hash_name(&s, d->name[d->sorted[i]]);
    sha256_finish(&s, d->list_hash);
    d->row = low_first(p);
    d->phase = SEALS;
    return taken;
}

static struct refusal seal(struct draw *d, const uint8_t *p, size_t n)
{
    if (d->phase != SEALS)
        return refuse(3, 0);
    if (n != HASH_BYTES)
        return refuse(5, n);
    if (d->parties == MOST_PARTIES)
        return refuse(5, MOST_PARTIES);
    d->seal[d->parties++] = p;
    return taken;
}

static struct refusal close_seals(struct draw *d)
{
    if (d->phase != SEALS)
        return refuse(3, 0);
    if (d->parties == 0)
        return refuse(9, 1);
    d->phase = OPENINGS;
    return taken;
}

static struct refusal opening(struct draw *d, const uint8_t *p, size_t n)
{
    if (d->phase != OPENINGS)
        return refuse(3, 0);
    if (n == 0)
        return refuse(7, 0);
    uint8_t party = p[0];
    if (party >= d->parties || d->opening[party] != NULL)
        return refuse(6, party);
    if (n - 1 != HASH_BYTES + d->row)
        return refuse(7, n - 1);
    if (!gives_seal(p + 1, d->row, d->list_hash, party, d->seal[party]))
        return refuse(8, party);
    d->opening[party] = p + 1;
    d->opened++;
    add_row(d->sum, p + 1 + HASH_BYTES, d->row);
    return taken;
}

static struct refusal close_openings(struct draw *d)
{
    if (d->phase != OPENINGS)
        return refuse(3, 0);
    if (d->opened == 0)
        return refuse(9, 2);
    d->phase = OVER;
    return taken;
}

static struct refusal step(struct draw *d, uint8_t kind, const uint8_t *p, size_t n)
{
    switch (kind) {
    case 1: return entry(d, p, n);
    case 2: return close_list(d, p, n);
    case 3: return seal(d, p, n);
    case 4: return close_seals(d);
    case 5: return opening(d, p, n);
    case 6: return close_openings(d);
    default: return refuse(3, 0);
    }
}

/* Takes the steps and prints a line for each refusal; answers whether the file ends after a step. */
static bool run(struct draw *d, const uint8_t *p, size_t length)
{
    for (unsigned long count = 1; length > 0; count++) {
        if (length < 3 || length - 3 < low_first(p + 1))
            return false;
        size_t n = low_first(p + 1);
        struct refusal r = step(d, p[0], p + 3, n);
        if (r.number != 0)
            printf("step %lu refused %u at %zu\n", count, r.number, r.place);
        p += 3 + n;
        length -= 3 + n;
    }
    return true;
}

static void put_two(FILE *f, unsigned number)
{
    putc((int)(number & 255), f);
    putc((int)(number >> 8), f);
}

static void put_protocol(FILE *f, const struct draw *d, const uint16_t *order)
{
    put_two(f, d->names);
    for (unsigned i = 0; i < d->names; i++) {
        struct name name = d->name[d->sorted[i]];
        putc(name.length, f);
        fwrite(name.bytes, 1, name.length, f);
    }
    put_two(f, (unsigned)d->row);
    putc((int)d->parties, f);
    for (unsigned i = 0; i < d->parties; i++) {
        fwrite(d->seal[i], 1, HASH_BYTES, f);
        putc(d->opening[i] != NULL, f);
        if (d->opening[i] != NULL)
            fwrite(d->opening[i], 1, HASH_BYTES + d->row, f);
    }
    putc(order != NULL, f);
    for (unsigned i = 0; order != NULL && i < d->names; i++)
        put_two(f, order[i]);
}

/* Writes beside the path and renames, so that the protocol is there whole or not at all. */
static bool write_protocol(const char *path, const struct draw *d, const uint16_t *order)
{
    size_t length = strlen(path);
    char *beside = malloc(length + 5);
    if (beside == NULL)
        return false;
    memcpy(beside, path, length);
    memcpy(beside + length, ".new", 5);
    FILE *f = fopen(beside, "wb");
    bool good = f != NULL;
    if (good) {
        put_protocol(f, d, order);
        good = !ferror(f);
        good = fclose(f) == 0 && good;
        good = good && rename(beside, path) == 0;
        if (!good) {
            int reason = errno;
            remove(beside);
            errno = reason;
        }
    }
    free(beside);
    return good;
}

static int fail(const char *what, const char *why)
{
    fflush(stdout);
    fprintf(stderr, "draw: %s: %s\n", what, why);
    return 1;
}

int main(int argc, char **argv)
{
    static struct draw d;
    uint16_t order[MOST_NAMES];
    size_t length;
    if (argc < 2 || argc > 3) {
        fputs("usage: draw STEPS [PROTOCOL]\n", stderr);
        return 1;
    }
    uint8_t *steps = read_file(argv[1], &length);
    if (steps == NULL)
        return fail(argv[1], strerror(errno));
    if (!run(&d, steps, length))
        return fail(argv[1], "the file ends inside a step");
    if (d.phase != OVER)
        return fail(argv[1], "no final close was taken");
    bool drawn = draw_order(d.sum, d.row, d.names, order);
    if (argc == 3 && !write_protocol(argv[2], &d, drawn ? order : NULL))
        return fail(argv[2], strerror(errno));
    for (unsigned i = 0; i < d.parties; i++)
        if (d.opening[i] == NULL)
            fprintf(stderr, "party %u left out\n", i);
    print_summary(d.names, d.parties, d.opened, drawn ? order : NULL);
    if (fflush(stdout) != 0 || ferror(stdout))
        return fail("standard output", "cannot be written");
    free(steps);
    return 0;
}
