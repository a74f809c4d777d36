/* The drawing store: a drawing as blocks that refer to each other, in words that the caller lends.
 *
 * Every call returns a refusal number, 0 if it is granted. Nothing needs checking before a call: any words, any
 * handle, any size get an answer, and a refused call alters nothing. Out-parameters are set in full on a grant and
 * to 0 on a refusal. Lengths are in words. Lent slices do not overlap, each pointer is aligned to 4 bytes and valid
 * for its length; of a length 0 the pointer may be anything but null. See docs/EMBEDDING.md.
 */
#ifndef DRAWING_STORE_H
#define DRAWING_STORE_H

#include <stddef.h>
#include <stdint.h>

#ifdef __cplusplus
extern "C" {
#endif

/* Refusals. The lowest that applies is given. */
enum {
    DS_GRANTED = 0,
    DS_SIZE = 1,          /* make: segments not 1 to 64, or the length differs */
    DS_UNSOUND = 2,       /* any other call: the arena isn't sound */
    DS_SHAPE = 3,         /* allocate: n above 1,023 or r above n; room: class not 3 to 12 */
    DS_NO_ROOM = 4,       /* allocate: no untaken block in the class and no pool segment */
    DS_NO_BLOCK = 5,      /* the handle asked about isn't a taken block */
    DS_NO_FIELD = 6,      /* reference field not below r; plain field not below n - r */
    DS_BAD_REFERENCE = 7, /* value to store is neither 0 nor a taken block */
    DS_BAD_ROOT = 8,      /* a root is neither 0 nor a taken block */
    DS_SHORT_LIST = 9     /* work list shorter than the number of taken blocks */
};

/* Standings. */
enum { DS_NONE = 0, DS_OUTSIDE = 1, DS_FREE = 2, DS_TAKEN = 3 };

/* The length in words of an arena of so many segments, 1 to 64. */
#define DS_ARENA_LENGTH(segments) (11 + 4164 * (size_t)(segments))

uint32_t ds_make(uint32_t *arena, size_t len, uint32_t segments);

uint32_t ds_allocate(uint32_t *arena, size_t len, uint32_t n, uint32_t r, uint8_t tag, uint32_t *handle);

uint32_t ds_standing(const uint32_t *arena, size_t len, uint32_t handle, uint32_t *standing, uint32_t *n, uint32_t *r, uint32_t *tag);

uint32_t ds_shape(const uint32_t *arena, size_t len, uint32_t handle, uint32_t *n, uint32_t *r, uint32_t *tag);

uint32_t ds_read_reference(const uint32_t *arena, size_t len, uint32_t handle, uint32_t field, uint32_t *value);

uint32_t ds_write_reference(uint32_t *arena, size_t len, uint32_t handle, uint32_t field, uint32_t value);

uint32_t ds_read_plain(const uint32_t *arena, size_t len, uint32_t handle, uint32_t field, uint32_t *value);

uint32_t ds_write_plain(uint32_t *arena, size_t len, uint32_t handle, uint32_t field, uint32_t value);

/* The plain words of a block, as a place in the arena. A granted part of no words has count 0 and the offset where it would begin. */
uint32_t ds_plain_words(const uint32_t *arena, size_t len, uint32_t handle, size_t *offset, size_t *count);

uint32_t ds_room(const uint32_t *arena, size_t len, uint32_t cls, uint32_t *room);

/* Lists the reachable blocks at the front of the work list, in drawing order, and frees the others. */
uint32_t ds_collect(uint32_t *arena, size_t len, const uint32_t *roots, size_t root_count, uint32_t *work, size_t work_len, uint32_t *count);

#ifdef __cplusplus
}
#endif

#endif
