/* A straightforward store in C, to measure against: the same clauses and the same collection, written plainly. */
#ifndef STRAIGHT_H
#define STRAIGHT_H

#include <stddef.h>
#include <stdint.h>

enum { AREA = 4096, RECORD = 68, HEAD = 11 };

/* Rows of the class table: blocks, then words at each level. */
extern const uint32_t straight_blocks[13];
extern const uint32_t straight_words[13][3];

/* 1 if the arena is sound. */
int straight_sound(const uint32_t *arena, size_t len);

/* Collects, as ds_collect does. */
uint32_t straight_collect(uint32_t *arena, size_t len, const uint32_t *roots, size_t root_count, uint32_t *work, size_t work_len, uint32_t *count);

/* Allocates, as ds_allocate does. */
uint32_t straight_allocate(uint32_t *arena, size_t len, uint32_t n, uint32_t r, uint8_t tag, uint32_t *handle);

/* The record of a segment from its class, rank and level-0 bits, which stand in place already without padding. */
void straight_levels(uint32_t *record, uint32_t class, uint32_t rank);

#endif
