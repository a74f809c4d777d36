/* The plain version: each clause a loop over what it speaks of, each reference a test of its handle, each block a branch. */
#include "straight.h"

#include <stdlib.h>
#include <string.h>

const uint32_t straight_blocks[13] = {0, 0, 0, 2048, 1024, 512, 256, 128, 64, 32, 16, 8, 4};
const uint32_t straight_words[13][3] = {{0}, {0}, {0}, {64, 2, 1}, {32, 1, 0}, {16, 1, 0}, {8, 1, 0}, {4, 1, 0}, {2, 1, 0}, {1, 0, 0}, {1, 0, 0}, {1, 0, 0}, {1, 0, 0}};
static const uint32_t level_at[3] = {1, 65, 67};
static const uint32_t level_room[3] = {64, 2, 1};

static uint32_t segments_of(const uint32_t *a) { return a[0] >> 24; }
static const uint32_t *record_of(const uint32_t *a, uint32_t s) { return a + HEAD + RECORD * s; }
static uint32_t class_of(const uint32_t *a, uint32_t s) { return record_of(a, s)[0] >> 28; }
static uint32_t rank_of(const uint32_t *a, uint32_t s) { return record_of(a, s)[0] >> 20 & 0xFF; }
static uint32_t count_of(const uint32_t *a, uint32_t s) { return record_of(a, s)[0] >> 8 & 0xFFF; }
static uint32_t place_rank(const uint32_t *a, uint32_t i) { return a[i - 2] >> 24; }
static uint32_t place_index(const uint32_t *a, uint32_t i) { return a[i - 2] >> 12 & 0xFFF; }
static int bit_of(const uint32_t *words, uint32_t k) { return words[k / 32] >> (k % 32) & 1; }

static const uint32_t *block_at(const uint32_t *a, uint32_t s, uint32_t k)
{
    return a + HEAD + RECORD * segments_of(a) + AREA * s + ((1u << class_of(a, s)) / 4) * k;
}

static uint32_t class_for(uint32_t n)
{
    uint32_t i = 3;
    while (4 * (n + 1) > 1u << i)
        i++;
    return i;
}

static int taken_at(const uint32_t *a, uint32_t s, uint32_t k)
{
    uint32_t i = class_of(a, s), rank = rank_of(a, s), at = place_rank(a, i);
    return rank < at || (rank == at && k < place_index(a, i)) || bit_of(record_of(a, s) + 1, k);
}

static int is_taken(const uint32_t *a, uint32_t h)
{
    if (h == 0)
        return 0;
    uint32_t s = (h - 1) / 2048, k = (h - 1) % 2048;
    return s < segments_of(a) && class_of(a, s) != 0 && k < straight_blocks[class_of(a, s)] && taken_at(a, s, k);
}

static uint32_t members(const uint32_t *a, uint32_t i)
{
    uint32_t m = 0;
    for (uint32_t s = 0; s < segments_of(a); s++)
        m += class_of(a, s) == i;
    return m;
}

static int levels_right(const uint32_t *rec, uint32_t i)
{
    for (int l = 0; l < 3; l++) {
        uint32_t end = l == 0 ? straight_blocks[i] : straight_words[i][l - 1];
        for (uint32_t j = 0; j < level_room[l]; j++) {
            uint32_t w = rec[level_at[l] + j];
            if (j >= straight_words[i][l]) {
                if (w != 0)
                    return 0;
                continue;
            }
            for (uint32_t b = 0; b < 32; b++) {
                uint32_t k = 32 * j + b;
                if (k >= end) {
                    if (!(w >> b & 1))
                        return 0;
                } else if (l > 0 && (w >> b & 1) != (rec[level_at[l - 1] + k] == 0xFFFFFFFF)) {
                    return 0;
                }
            }
        }
    }
    return 1;
}

static int records_right(const uint32_t *a)
{
    uint32_t n = segments_of(a);
    if (a[0] & 0xFFFFFF)
        return 0;
    for (uint32_t i = 3; i <= 12; i++)
        if (a[i - 2] & 0xFFF)
            return 0;
    for (uint32_t s = 0; s < n; s++) {
        const uint32_t *rec = record_of(a, s);
        uint32_t i = class_of(a, s);
        if (i == 0) {
            for (int j = 0; j < RECORD; j++)
                if (rec[j] != 0)
                    return 0;
            continue;
        }
        if (i < 3 || i > 12 || rec[0] & 0xFF || !levels_right(rec, i))
            return 0;
        uint32_t count = 0;
        for (uint32_t k = 0; k < straight_blocks[i]; k++)
            count += bit_of(rec + 1, k);
        if (count != count_of(a, s) || (rank_of(a, s) > place_rank(a, i) && count == straight_blocks[i]))
            return 0;
    }
    for (uint32_t i = 3; i <= 12; i++) {
        uint32_t m = members(a, i);
        for (uint32_t q = 0; q < m; q++) {
            uint32_t found = 0;
            for (uint32_t s = 0; s < n; s++)
                found += class_of(a, s) == i && rank_of(a, s) == q;
            if (found != 1)
                return 0;
        }
        if (m == 0 ? a[i - 2] != 0 : place_rank(a, i) >= m || place_index(a, i) > straight_blocks[i])
            return 0;
    }
    return 1;
}

static int blocks_right(const uint32_t *a)
{
    for (uint32_t s = 0; s < segments_of(a); s++) {
        uint32_t i = class_of(a, s);
        for (uint32_t k = 0; i != 0 && k < straight_blocks[i]; k++) {
            if (!taken_at(a, s, k))
                continue;
            const uint32_t *b = block_at(a, s, k);
            uint32_t n = b[0] >> 20, r = b[0] >> 8 & 0xFFF;
            if (class_for(n) != i || r > n)
                return 0;
            for (uint32_t f = 0; f < r; f++)
                if (b[1 + f] != 0 && !is_taken(a, b[1 + f]))
                    return 0;
        }
    }
    return 1;
}

int straight_sound(const uint32_t *arena, size_t len)
{
    if (len == 0)
        return 0;
    uint32_t n = segments_of(arena);
    if (n < 1 || n > 64 || len != HEAD + (size_t)(RECORD + AREA) * n)
        return 0;
    return records_right(arena) && blocks_right(arena);
}

static void set_bit(uint32_t *rec, uint32_t class, uint32_t k)
{
    for (int l = 0; l < 3; l++) {
        uint32_t *w = rec + level_at[l] + k / 32;
        *w |= 1u << (k % 32);
        if (*w != 0xFFFFFFFF || l == 2 || straight_words[class][l + 1] == 0)
            return;
        k /= 32;
    }
}

static void fresh(uint32_t *rec, uint32_t class, uint32_t rank, uint32_t count)
{
    memset(rec, 0, RECORD * sizeof *rec);
    rec[0] = class << 28 | rank << 20 | count << 8;
    for (int l = 0; l < 3; l++) {
        uint32_t end = l == 0 ? straight_blocks[class] : straight_words[class][l - 1];
        for (uint32_t k = end; k < 32 * straight_words[class][l]; k++)
            rec[level_at[l] + k / 32] |= 1u << (k % 32);
    }
}

void straight_levels(uint32_t *rec, uint32_t class, uint32_t rank)
{
    uint32_t bits[64], count = 0;
    memcpy(bits, rec + 1, sizeof bits);
    for (uint32_t k = 0; k < straight_blocks[class]; k++)
        count += bit_of(bits, k);
    fresh(rec, class, rank, count);
    for (uint32_t k = 0; k < straight_blocks[class]; k++)
        if (bit_of(bits, k))
            set_bit(rec, class, k);
}

/* Gives block k of segment s, of rank q in its class. */
static uint32_t give(uint32_t *a, uint32_t s, uint32_t k, uint32_t q, uint32_t header)
{
    uint32_t i = class_of(a, s), *b = (uint32_t *)block_at(a, s, k);
    memset(b, 0, 1u << i);
    b[0] = header;
    a[i - 2] = q << 24 | (k + 1) << 12;
    return s * 2048 + k + 1;
}

uint32_t straight_allocate(uint32_t *arena, size_t len, uint32_t n, uint32_t r, uint8_t tag, uint32_t *handle)
{
    *handle = 0;
    if (!straight_sound(arena, len))
        return 2;
    if (n > 1023 || r > n)
        return 3;
    uint32_t i = class_for(n), m = members(arena, i), header = n << 20 | r << 8 | tag;
    for (uint32_t q = 0; q < m; q++)
        for (uint32_t s = 0; s < segments_of(arena); s++)
            for (uint32_t k = 0; class_of(arena, s) == i && rank_of(arena, s) == q && k < straight_blocks[i]; k++)
                if (!taken_at(arena, s, k)) {
                    *handle = give(arena, s, k, q, header);
                    return 0;
                }
    for (uint32_t s = 0; s < segments_of(arena); s++)
        if (class_of(arena, s) == 0) {
            fresh(arena + HEAD + RECORD * s, i, m, 0);
            *handle = give(arena, s, 0, m, header);
            return 0;
        }
    return 4;
}

static void rank_anew(uint32_t *a, const uint32_t *list, uint32_t c)
{
    uint32_t n = segments_of(a), live[64] = {0}, class[64], rank[64];
    for (uint32_t k = 0; k < c; k++)
        live[(list[k] - 1) / 2048]++;
    for (uint32_t s = 0; s < n; s++) {
        class[s] = class_of(a, s);
        rank[s] = rank_of(a, s);
    }
    for (uint32_t i = 3; i <= 12; i++) {
        uint32_t m = 0, full = 0, last = members(a, i);
        for (int rest = 0; rest < 2; rest++)
            for (uint32_t q = 0; q < last; q++)
                for (uint32_t s = 0; s < n; s++)
                    if (class[s] == i && rank[s] == q && live[s] != 0 && (live[s] == straight_blocks[i]) != rest) {
                        fresh(a + HEAD + RECORD * s, i, m++, live[s]);
                        full += !rest;
                    }
        a[i - 2] = m == 0 ? 0 : full < m ? full << 24 : (m - 1) << 24 | straight_blocks[i] << 12;
    }
    for (uint32_t s = 0; s < n; s++)
        if (class[s] != 0 && live[s] == 0)
            memset(a + HEAD + RECORD * s, 0, RECORD * sizeof *a);
    for (uint32_t k = 0; k < c; k++) {
        uint32_t s = (list[k] - 1) / 2048;
        set_bit(a + HEAD + RECORD * s, class[s], (list[k] - 1) % 2048);
    }
}

uint32_t straight_collect(uint32_t *arena, size_t len, const uint32_t *roots, size_t root_count, uint32_t *work, size_t work_len, uint32_t *count)
{
    static uint32_t marks[4096];
    *count = 0;
    if (!straight_sound(arena, len))
        return 2;
    for (size_t p = 0; p < root_count; p++)
        if (roots[p] != 0 && !is_taken(arena, roots[p]))
            return 8;
    size_t taken = 0;
    for (uint32_t h = 1; h <= 2048 * segments_of(arena); h++)
        taken += is_taken(arena, h);
    if (work_len < taken)
        return 9;
    memset(marks, 0, sizeof marks);
    uint32_t head = 0, tail = 0;
    for (size_t p = 0; p < root_count; p++) {
        uint32_t x = roots[p] - 1;
        if (roots[p] == 0 || (marks[x / 32] >> (x % 32) & 1))
            continue;
        marks[x / 32] |= 1u << (x % 32);
        work[tail++] = roots[p];
    }
    while (head < tail) {
        uint32_t h = work[head++];
        const uint32_t *b = block_at(arena, (h - 1) / 2048, (h - 1) % 2048);
        uint32_t r = b[0] >> 8 & 0xFFF;
        for (uint32_t f = 0; f < r; f++) {
            uint32_t x = b[1 + f] - 1;
            if (b[1 + f] == 0 || (marks[x / 32] >> (x % 32) & 1))
                continue;
            marks[x / 32] |= 1u << (x % 32);
            work[tail++] = b[1 + f];
        }
    }
    rank_anew(arena, work, tail);
    *count = tail;
    return 0;
}
