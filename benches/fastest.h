/* A store in C written for speed, to measure against: the same clauses and the same collection as the straightforward one. */
#ifndef FASTEST_H
#define FASTEST_H

#include <stddef.h>
#include <stdint.h>

/* 1 if the arena is sound. */
int fastest_sound(const uint32_t *arena, size_t len);

/* Collects, as ds_collect does. */
uint32_t fastest_collect(uint32_t *arena, size_t len, const uint32_t *roots, size_t root_count, uint32_t *work, size_t work_len, uint32_t *count);

#endif
