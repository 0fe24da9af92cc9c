/* repeat PROTOCOL: repeats a draw from its protocol. The yardstick for the proved program: the
   same check as one would write it in C. */
#include <errno.h>

#include "rules.h"

struct party {
    const uint8_t *seal, *opening; /* no opening: NULL */
    size_t opened_at;
};

struct protocol {
    const uint8_t *bytes;
    size_t length, at; /* the part that is read so far */
    unsigned names;
    size_t row, row_at, parties_at, word_at;
    unsigned parties, opened;
    struct party party[MOST_PARTIES];
};

struct refusal {
    unsigned number; /* 0 for an accepted protocol */
    size_t place;
};

static const struct refusal accepted = { 0, 0 };

static struct refusal refuse(unsigned number, size_t place)
{
    return (struct refusal){ number, place };
}

static bool has(const struct protocol *p, size_t n)
{
    return p->length - p->at >= n;
}

/* The first pass: counts and lengths as they stand. */
static struct refusal read_shape(struct protocol *p)
{
    const struct refusal early = { 11, p->length };
    if (!has(p, 2))
        return early;
    p->names = low_first(p->bytes);
    p->at = 2;
    for (unsigned i = 0; i < p->names; i++) {
        if (!has(p, 1) || !has(p, 1 + (size_t)p->bytes[p->at]))
            return early;
        p->at += 1 + (size_t)p->bytes[p->at];
    }
    if (!has(p, 3))
        return early;
    p->row_at = p->at;
    p->row = low_first(p->bytes + p->at);
    p->parties_at = p->at + 2;
    p->parties = p->bytes[p->parties_at];
    p->at += 3;
    for (unsigned i = 0; i < p->parties; i++) {
        struct party *party = &p->party[i];
        if (!has(p, HASH_BYTES + 1))
            return early;
        party->seal = p->bytes + p->at;
        party->opened_at = p->at + HASH_BYTES;
        p->at += HASH_BYTES + 1;
        if (p->bytes[party->opened_at] != 1)
            continue;
        if (!has(p, HASH_BYTES + p->row))
            return early;
        party->opening = p->bytes + p->at;
        p->opened++;
        p->at += HASH_BYTES + p->row;
    }
    if (!has(p, 1))
        return early;
    p->word_at = p->at++;
    size_t order = p->bytes[p->word_at] == 1 ? 2 * (size_t)p->names : 0;
    if (!has(p, order))
        return early;
    p->at += order;
    return p->at < p->length ? refuse(11, p->at) : accepted;
}

/* The second pass: ranges and the sorting of the names, in the order of the bytes. */
static struct refusal check_ranges(const struct protocol *p)
{
    if (p->names < 1 || p->names > MOST_NAMES)
        return refuse(12, 0);
    struct name before = { p->bytes, 0 };
    size_t at = 2;
    for (unsigned i = 0; i < p->names; i++) {
        struct name name = { p->bytes + at + 1, p->bytes[at] };
        if (name.length < 1 || name.length > LONGEST_NAME)
            return refuse(12, at);
        if (compare_names(before, name) >= 0)
            return refuse(12, at + 1);
        before = name;
        at += 1 + (size_t)name.length;
    }
    if (p->row < SHORTEST_ROW || p->row > LONGEST_ROW)
        return refuse(12, p->row_at);
    if (p->parties == 0)
        return refuse(12, p->parties_at);
    for (unsigned i = 0; i < p->parties; i++)
        if (p->bytes[p->party[i].opened_at] > 1)
            return refuse(12, p->party[i].opened_at);
    return accepted;
}

/* The third pass. The list's hash is that of the bytes as they stand in the protocol. */
static struct refusal check_seals(const struct protocol *p)
{
    struct sha256 s;
    uint8_t list[HASH_BYTES];
    sha256_start(&s);
    sha256_update(&s, p->bytes + 2, p->row_at - 2);
    sha256_finish(&s, list);
    for (unsigned i = 0; i < p->parties; i++) {
        const struct party *party = &p->party[i];
        if (party->opening != NULL && !gives_seal(party->opening, p->row, list, (uint8_t)i, party->seal))
            return refuse(13, i);
    }
    return p->opened == 0 ? refuse(13, 255) : accepted;
}

/* The fourth pass; hands on the order, or NULL in its place where the bits run out. */
static struct refusal check_order(const struct protocol *p, uint16_t *room, const uint16_t **order)
{
    static uint8_t sum[LONGEST_ROW];
    for (unsigned i = 0; i < p->parties; i++)
        if (p->party[i].opening != NULL)
            add_row(sum, p->party[i].opening + HASH_BYTES, p->row);
    bool drawn = draw_order(sum, p->row, p->names, room);
    if (p->bytes[p->word_at] != drawn)
        return refuse(14, p->word_at);
    *order = drawn ? room : NULL;
    for (unsigned i = 0; drawn && i < p->names; i++)
        if (low_first(p->bytes + p->word_at + 1 + 2 * i) != room[i])
            return refuse(14, p->word_at + 1);
    return accepted;
}

int main(int argc, char **argv)
{
    static struct protocol p;
    uint16_t room[MOST_NAMES];
    const uint16_t *order = NULL;
    if (argc != 2) {
        fputs("usage: repeat PROTOCOL\n", stderr);
        return 1;
    }
    p.bytes = read_file(argv[1], &p.length);
    if (p.bytes == NULL) {
        fprintf(stderr, "repeat: %s: %s\n", argv[1], strerror(errno));
        return 1;
    }
    struct refusal r = read_shape(&p);
    if (r.number == 0)
        r = check_ranges(&p);
    if (r.number == 0)
        r = check_seals(&p);
    if (r.number == 0)
        r = check_order(&p, room, &order);
    if (r.number != 0)
        printf("refused %u at %zu\n", r.number, r.place);
    else
        print_summary(p.names, p.parties, p.opened, order);
    if (fflush(stdout) != 0 || ferror(stdout)) {
        fputs("repeat: standard output cannot be written\n", stderr);
        return 1;
    }
    free((void *)p.bytes);
    return r.number != 0;
}
