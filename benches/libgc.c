#include "libgc.h"

#ifdef LIBGC
#define GC_THREADS /* or GC_set_markers_count isn't declared */
#include <gc.h>
#include <gc/gc_mark.h>
#include <string.h>

const int libgc_here = 1;

enum { HANDLES = 64 * 2048 + 1, ROOTS = 256 };

/* Of each handle its object (the references, then the header and the plain words) and its block. libgc is told of the roots alone. */
static void **objects[HANDLES], *roots_here[ROOTS];
static const uint32_t *blocks[HANDLES];

void libgc_begin(void)
{
    static int begun;
    if (!begun) {
        GC_set_markers_count(1);
        GC_set_no_dls(1);
        GC_INIT();
        GC_clear_roots();
        GC_add_roots(roots_here, roots_here + ROOTS);
        begun = 1;
    }
    memset(roots_here, 0, sizeof roots_here);
    memset(objects, 0, sizeof objects);
    GC_gcollect();
    GC_disable();
}

void libgc_block(uint32_t handle, const uint32_t *words)
{
    uint32_t n = words[0] >> 20, r = words[0] >> 8 & 0xFFF;
    blocks[handle] = words;
    objects[handle] = GC_MALLOC(r * sizeof(void *) + (1 + n - r) * sizeof *words);
}

void libgc_link(const uint32_t *roots, uint32_t count)
{
    for (uint32_t h = 1; h < HANDLES; h++) {
        uint32_t r = objects[h] == 0 ? 0 : blocks[h][0] >> 8 & 0xFFF;
        for (uint32_t f = 0; f < r; f++)
            objects[h][f] = objects[blocks[h][1 + f]];
    }
    for (uint32_t p = 0; p < count; p++)
        roots_here[p] = objects[roots[p]];
    GC_enable();
}

void libgc_collect(void) { GC_gcollect(); }

static void add_one(void *object, size_t bytes, void *sum)
{
    (void)object, (void)bytes;
    ++*(uint32_t *)sum;
}

static void *add_all(void *sum)
{
    GC_enumerate_reachable_objects_inner(add_one, sum);
    return 0;
}

uint32_t libgc_found(void)
{
    uint32_t sum = 0;
    GC_call_with_alloc_lock(add_all, &sum);
    return sum;
}

#else

const int libgc_here = 0;
void libgc_begin(void) {}
void libgc_block(uint32_t handle, const uint32_t *words) { (void)handle, (void)words; }
void libgc_link(const uint32_t *roots, uint32_t count) { (void)roots, (void)count; }
void libgc_collect(void) {}
uint32_t libgc_found(void) { return 0; }

#endif
