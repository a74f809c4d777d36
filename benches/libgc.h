/* The same graph for libgc to collect, to measure against. Compiled with LIBGC defined if libgc is there, or else without it.
 *
 * What is compared: GC_gcollect() on a heap that holds the arena's taken blocks, each an object of as many references and plain
 * words, with the drawing's roots in the one root array. A reference is 8 bytes there and 4 in an arena, so the small objects take
 * twice the room. libgc marks what it reaches, and looks at every word of an object and of the stack; it sweeps when
 * memory is asked for again, so most of the sweep isn't in the time. It judges nothing and gives no order. One thread marks.
 */
#ifndef LIBGC_H
#define LIBGC_H

#include <stdint.h>

/* 1 if libgc is compiled in. Without it the others do nothing. */
extern const int libgc_here;

/* Drops the graph before. */
void libgc_begin(void);

/* Adds the block of a handle, from its words in the arena. */
void libgc_block(uint32_t handle, const uint32_t *words);

/* Makes references of the handles, and roots of these. */
void libgc_link(const uint32_t *roots, uint32_t count);

void libgc_collect(void);

/* How many objects the last collection found. They may be more than the live ones: what looks like a pointer is taken for one. */
uint32_t libgc_found(void);

#endif
