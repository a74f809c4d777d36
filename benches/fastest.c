/* The fast version: records are compared whole, references gathered into short rows and tested there without branches. */
#include "fastest.h"

#include <string.h>

enum { AREA = 4096, RECORD = 68, HEAD = 11, SEGMENTS = 64, WORDS = 64, GATHER = 4096, LARGEST = 1023, STRIDE = 8 };

static const uint32_t blocks[13] = {0, 0, 0, 2048, 1024, 512, 256, 128, 64, 32, 16, 8, 4};
static const uint32_t words[13] = {0, 0, 0, 64, 32, 16, 8, 4, 2, 1, 1, 1, 1};

/* Where the block at position x (its handle less one) of a segment stands: base + (x << shift), modulo 2^32. */
struct spot { uint32_t base, shift; };

/* What the judge learns of an arena. */
struct view {
    uint32_t n, class[SEGMENTS], members[13];
    struct spot at[SEGMENTS];
    uint8_t by_rank[13][SEGMENTS];
    uint32_t taken[SEGMENTS * WORDS]; /* a bit per position */
    uint32_t row[8192];               /* a bit per handle; 0 counts as taken, handles past the last one don't */
};

/* The bits from n on, none if n is 32 or more. */
static inline uint32_t from(uint32_t n) { return n < 32 ? ~0u << n : 0; }

static inline uint32_t ones(const uint32_t *w, uint32_t n)
{
    uint32_t c = 0, j = 0;
    for (; j + 2 <= n; j += 2)
        c += (uint32_t)__builtin_popcountll((uint64_t)w[j + 1] << 32 | w[j]);
    return j < n ? c + (uint32_t)__builtin_popcount(w[j]) : c;
}

/* A word of the level above n words, padded. */
static inline uint32_t above(const uint32_t *w, uint32_t n)
{
    uint32_t full = from(n);
    for (uint32_t k = 0; k < n; k++)
        full |= (uint32_t)(w[k] == ~0u) << k;
    return full;
}

/* The one sound record of this class, rank and level-0 bits; gives their count. */
static uint32_t shape(uint32_t *rec, uint32_t class, uint32_t rank, const uint32_t *bits)
{
    uint32_t n = words[class], count = ones(bits, n);
    memset(rec + 1 + n, 0, (RECORD - 1 - n) * sizeof *rec);
    memcpy(rec + 1, bits, n * sizeof *rec);
    rec[0] = class << 28 | rank << 20 | count << 8;
    rec[n] |= from(blocks[class]);
    if (class == 3) {
        rec[65] = above(bits, 32);
        rec[66] = above(bits + 32, 32);
        rec[67] = above(rec + 65, 2);
    } else if (class < 9) {
        rec[65] = above(bits, n);
    }
    return count;
}

/* Adds the blocks below the place's index to a segment's bits. */
static void take_below(uint32_t *bits, uint32_t end)
{
    memset(bits, 0xFF, end / 32 * sizeof *bits);
    if (end % 32 != 0)
        bits[end / 32] |= ~from(end % 32);
}

static int pool_right(const uint32_t *rec)
{
    uint32_t any = 0;
    for (int j = 0; j < RECORD; j++)
        any |= rec[j];
    return any == 0;
}

/* Judges a record and notes the segment's taken blocks. */
static int record_right(const uint32_t *a, uint32_t s, struct view *v, uint64_t *ranks)
{
    const uint32_t *rec = a + HEAD + RECORD * s;
    uint32_t i = rec[0] >> 28, rank = rec[0] >> 20 & 0xFF, *bits = v->taken + WORDS * s, wanted[RECORD];
    memset(bits, 0, WORDS * sizeof *bits);
    v->class[s] = i;
    if (i == 0)
        return pool_right(rec);
    if (i < 3 || i > 12 || rank >= SEGMENTS)
        return 0;
    memcpy(bits, rec + 1, words[i] * sizeof *bits);
    bits[words[i] - 1] &= ~from(blocks[i]);
    uint32_t count = shape(wanted, i, rank, bits), top = a[i - 2] >> 24, end = a[i - 2] >> 12 & 0xFFF;
    if (memcmp(rec, wanted, sizeof wanted) != 0 || (rank > top && count == blocks[i]) || end > blocks[i])
        return 0;
    if (rank <= top)
        take_below(bits, rank < top ? blocks[i] : end);
    ranks[i] |= (uint64_t)1 << rank;
    v->members[i]++;
    v->by_rank[i][rank] = (uint8_t)s;
    v->at[s].shift = i - 2;
    v->at[s].base = HEAD + RECORD * v->n + AREA * s - (2048 * s << (i - 2));
    return 1;
}

static int records_right(const uint32_t *a, struct view *v)
{
    uint64_t ranks[13] = {0};
    memset(v->members, 0, sizeof v->members);
    for (uint32_t s = 0; s < v->n; s++)
        if (!record_right(a, s, v, ranks))
            return 0;
    for (uint32_t i = 3; i <= 12; i++) {
        uint32_t m = v->members[i];
        if (a[i - 2] & 0xFFF || (m == 0 ? a[i - 2] != 0 : a[i - 2] >> 24 >= m))
            return 0;
        if (m != 0 && ranks[i] != ~(uint64_t)0 >> (64 - m))
            return 0;
    }
    return (a[0] & 0xFFFFFF) == 0;
}

/* The row by handles is the one by positions, a bit further. */
static void make_row(struct view *v)
{
    uint32_t carry = 1, end = WORDS * v->n;
    for (uint32_t j = 0; j < end; j++) {
        v->row[j] = v->taken[j] << 1 | carry;
        carry = v->taken[j] >> 31;
    }
    v->row[end] = carry;
    memset(v->row + end + 1, 0, (8191 - end) * sizeof *v->row);
}

static inline uint32_t look(const uint32_t *row, uint32_t h) { return row[h >> 5 & 8191] >> (h & 31); }

/* 1 if each reference is 0 or taken. Handles past the row wrap round in it, so over tells of them at the end. */
static int all_taken(const uint32_t *row, const uint32_t *refs, size_t n)
{
    const uint32_t *end = refs + n, *eights = refs + n / 8 * 8;
    uint32_t even = 1, odd = 1, over = 0;
    for (; refs != eights; refs += 8) {
        even &= look(row, refs[0]) & look(row, refs[1]);
        odd &= look(row, refs[2]) & look(row, refs[3]);
        even &= look(row, refs[4]) & look(row, refs[5]);
        odd &= look(row, refs[6]) & look(row, refs[7]);
        over |= refs[0] | refs[1] | refs[2] | refs[3] | refs[4] | refs[5] | refs[6] | refs[7];
    }
    for (; refs != end; refs++) {
        over |= *refs;
        even &= look(row, *refs);
    }
    return (even & odd & (over >> 18 == 0)) != 0;
}

/* Appends the references of 32 taken blocks of class 3, side by side; those past r count as 0. */
static uint32_t pairs(uint32_t *refs, const uint32_t *b, uint32_t *wrong)
{
    uint32_t w = 0;
    for (uint32_t k = 0; k < 32; k++) {
        uint32_t n = b[2 * k] >> 20, r = b[2 * k] >> 8 & 0xFFF;
        w |= n >> 1 | (n - r) >> 31;
        refs[k] = b[2 * k + 1] & -r;
    }
    *wrong |= w;
    return 32;
}

/* The same for class 4. */
static uint32_t fours(uint32_t *refs, const uint32_t *b, uint32_t *wrong)
{
    uint32_t w = 0;
    for (uint32_t k = 0; k < 32; k++) {
        uint32_t n = b[4 * k] >> 20, r = b[4 * k] >> 8 & 0xFFF;
        w |= (n >> 1 ^ 1) | (n - r) >> 31;
        refs[k] = b[4 * k + 1] & (r > 0 ? ~0u : 0);
        refs[32 + k] = b[4 * k + 2] & (r > 1 ? ~0u : 0);
        refs[64 + k] = b[4 * k + 3] & (r > 2 ? ~0u : 0);
    }
    *wrong |= w;
    return 96;
}

/* Copies a block's r references, and up to STRIDE words of what follows if the arena has them. */
static inline void gather(uint32_t *to, const uint32_t *a, size_t len, uint32_t off, uint32_t r)
{
    if ((size_t)off + r + STRIDE + 1 > len) {
        memcpy(to, a + off + 1, r * sizeof *to);
        return;
    }
    memcpy(to, a + off + 1, STRIDE * sizeof *to);
    for (uint32_t f = STRIDE; f < r; f += STRIDE)
        memcpy(to + f, a + off + 1 + f, STRIDE * sizeof *to);
}

/* Appends the references of the taken ones of up to 32 blocks side by side, the first of them at off. */
static uint32_t picked(uint32_t *refs, const uint32_t *a, size_t len, uint32_t off, uint32_t class, uint32_t bits, uint32_t *wrong)
{
    uint32_t size = 1u << (class - 2), least = class == 3 ? 0 : size / 2, g = 0;
    for (; bits != 0; bits &= bits - 1) {
        uint32_t b = off + ((uint32_t)__builtin_ctz(bits) << (class - 2)), n = a[b] >> 20, r = a[b] >> 8 & 0xFFF;
        if (n - least >= size - least || r > n) {
            *wrong = 1;
            return 0;
        }
        gather(refs + g, a, len, b, r);
        g += r;
    }
    return g;
}

/* Large blocks are few, and their references make a row where they stand. */
static int large_right(const struct view *v, const uint32_t *a, uint32_t off, uint32_t class, uint32_t bits)
{
    for (; bits != 0; bits &= bits - 1) {
        const uint32_t *b = a + off + ((uint32_t)__builtin_ctz(bits) << (class - 2));
        uint32_t n = b[0] >> 20, r = b[0] >> 8 & 0xFFF;
        if (n >> (class - 3) != 1 || r > n || !all_taken(v->row, b + 1, r))
            return 0;
    }
    return 1;
}

static int segment_right(const struct view *v, const uint32_t *a, size_t len, uint32_t s)
{
    uint32_t refs[AREA + STRIDE], g = 0, wrong = 0, i = v->class[s], off = HEAD + RECORD * v->n + AREA * s;
    if (i > 8)
        return large_right(v, a, off, i, v->taken[WORDS * s]);
    for (uint32_t j = 0; j < words[i] && wrong == 0; j++, off += 32u << (i - 2)) {
        uint32_t bits = v->taken[WORDS * s + j];
        if (bits != ~0u || i > 4)
            g += picked(refs + g, a, len, off, i, bits, &wrong);
        else
            g += i == 3 ? pairs(refs + g, a + off, &wrong) : fours(refs + g, a + off, &wrong);
    }
    return wrong == 0 && all_taken(v->row, refs, g);
}

static int judge(const uint32_t *a, size_t len, struct view *v)
{
    if (len == 0)
        return 0;
    v->n = a[0] >> 24;
    if (v->n < 1 || v->n > SEGMENTS || len != HEAD + (size_t)(RECORD + AREA) * v->n || !records_right(a, v))
        return 0;
    make_row(v);
    for (uint32_t s = 0; s < v->n; s++)
        if (!segment_right(v, a, len, s))
            return 0;
    return 1;
}

int fastest_sound(const uint32_t *arena, size_t len)
{
    struct view v;
    return judge(arena, len, &v);
}

/* Stores h always, and moves on only if its bit in w is set. */
static inline uint32_t *keep(uint32_t *to, uint32_t h, uint32_t w)
{
    *to = h;
    return to + (w >> (h & 31) & 1);
}

/* Keeps the first of each unseen handle, in order, and notes it as seen; gives how many.
 * Most have been seen: a first pass that only reads drops those, so few wait for what was written before them. */
static uint32_t sift(uint32_t *refs, uint32_t n, uint32_t *restrict unseen)
{
    const uint32_t *f = refs, *end = refs + n, *quads = refs + n / 4 * 4;
    uint32_t *some = refs, *kept = refs;
    for (; f != quads; f += 4) {
        uint32_t p = f[0], q = f[1], r = f[2], t = f[3];
        some = keep(some, p, unseen[p >> 5]);
        some = keep(some, q, unseen[q >> 5]);
        some = keep(some, r, unseen[r >> 5]);
        some = keep(some, t, unseen[t >> 5]);
    }
    for (; f != end; f++)
        some = keep(some, *f, unseen[*f >> 5]);
    for (f = refs; f != some; f++) {
        uint32_t h = *f, *w = unseen + (h >> 5), was = *w;
        kept = keep(kept, h, was);
        *w = was & ~(1u << (h & 31));
    }
    return (uint32_t)(kept - refs);
}

/* Lists those of the references that are new; gives the list's new end. */
static uint32_t append(uint32_t *work, uint32_t tail, uint32_t *refs, uint32_t n, uint32_t *unseen)
{
    n = sift(refs, n, unseen);
    if (n != 0)
        memcpy(work + tail, refs, n * sizeof *refs);
    return tail + n;
}

/* Lists what the roots reach, breadth first, with the list as the queue; stops early when nothing is left to find. */
static uint32_t trace(const struct view *v, const uint32_t *a, size_t len, const uint32_t *roots, size_t root_count, uint32_t *work, uint32_t most, uint32_t *unseen)
{
    uint32_t refs[GATHER + STRIDE], head = 0, tail = 0;
    for (size_t p = 0; p < root_count; p += GATHER) {
        uint32_t g = root_count - p < GATHER ? (uint32_t)(root_count - p) : GATHER;
        memcpy(refs, roots + p, g * sizeof *refs);
        tail = append(work, tail, refs, g, unseen);
    }
    while (head < tail && tail < most) {
        uint32_t g = 0;
        while (head < tail && g <= GATHER - LARGEST) {
            uint32_t x = work[head++] - 1;
            struct spot at = v->at[x >> 11];
            uint32_t off = at.base + (x << at.shift), r = a[off] >> 8 & 0xFFF;
            gather(refs + g, a, len, off, r);
            g += r;
        }
        tail = append(work, tail, refs, g, unseen);
    }
    return tail;
}

/* Writes the records of class i: full segments first, then the rest in use, each in the old order; the others go back to the pool. */
static void rank_anew(uint32_t *a, const struct view *v, uint32_t i, const uint32_t *live)
{
    uint32_t m, full = 0, rest = 0, used[SEGMENTS];
    for (uint32_t q = 0; q < v->members[i]; q++) {
        uint32_t s = v->by_rank[i][q], count = ones(live + WORDS * s, words[i]);
        if (count == blocks[i])
            shape(a + HEAD + RECORD * s, i, full++, live + WORDS * s);
        else if (count != 0)
            used[rest++] = s;
        else
            memset(a + HEAD + RECORD * s, 0, RECORD * sizeof *a);
    }
    for (m = full; m < full + rest; m++)
        shape(a + HEAD + RECORD * used[m - full], i, m, live + WORDS * used[m - full]);
    a[i - 2] = m == 0 ? 0 : full < m ? full << 24 : (m - 1) << 24 | blocks[i] << 12;
}

static int roots_right(const struct view *v, const uint32_t *roots, size_t root_count)
{
    for (size_t p = 0; p < root_count; p += GATHER)
        if (!all_taken(v->row, roots + p, root_count - p < GATHER ? (uint32_t)(root_count - p) : GATHER))
            return 0;
    return 1;
}

uint32_t fastest_collect(uint32_t *arena, size_t len, const uint32_t *roots, size_t root_count, uint32_t *work, size_t work_len, uint32_t *count)
{
    struct view v;
    *count = 0;
    if (!judge(arena, len, &v))
        return 2;
    if (!roots_right(&v, roots, root_count))
        return 8;
    uint32_t end = WORDS * v.n, most = ones(v.taken, end);
    if (work_len < most)
        return 9;
    uint32_t unseen[SEGMENTS * WORDS + 1];
    memcpy(unseen, v.row, (end + 1) * sizeof *unseen);
    unseen[0] &= ~1u;
    *count = trace(&v, arena, len, roots, root_count, work, most, unseen);
    for (uint32_t j = 0; j < end; j++)
        v.taken[j] &= ~(unseen[j] >> 1 | unseen[j + 1] << 31);
    for (uint32_t i = 3; i <= 12; i++)
        rank_anew(arena, &v, i, v.taken);
    return 0;
}
