/* Serves the calls of the static library over standard input and output, so that the second program can hold them
 * to its own from another process, built for another processor if need be. Written in C against the header, as a
 * caller's program is.
 *
 * A request, in 32-bit words: the call's number, three arguments, the lengths of arena, roots and list, then their
 * words. A reply: the refusal number, how many values there are, whether the words around what was lent stand as
 * before, four values of 64 bits; then the words of arena and list. */
#include "../../include/drawing_store.h"
#include <stdio.h>
#include <stdlib.h>

enum { GAP = 16 };
static const uint32_t MARK = 0x5EA1ED00;

/* values stand at a number that no call leaves there, so that one which is not set shows */
#define UNSET 0xDEADBEEF

static void take(uint32_t *to, size_t words) {
    if (fread(to, 4, words, stdin) != words) exit(1);
}

static void give(const void *from, size_t words) {
    if (fwrite(from, 4, words, stdout) != words) exit(1);
}

static int untouched(const uint32_t *gap) {
    for (int k = 0; k < GAP; k++)
        if (gap[k] != MARK) return 0;
    return 1;
}

int main(void) {
    uint32_t q[7];
    while (fread(q, 4, 7, stdin) == 7) {
        size_t len = q[4], root_count = q[5], work_len = q[6], all = len + root_count + work_len + 4 * GAP;
        uint32_t *lent = malloc(4 * all);
        if (!lent) return 1;
        for (size_t k = 0; k < all; k++) lent[k] = MARK;
        uint32_t *arena = lent + GAP, *roots = arena + len + GAP, *work = roots + root_count + GAP;
        take(arena, len);
        take(roots, root_count);
        take(work, work_len);

        uint32_t v[4] = {UNSET, UNSET, UNSET, UNSET}, reply[3] = {0, 0, 0};
        size_t offset = UNSET, count = UNSET;
        switch (q[0]) {
        case 0: reply[0] = ds_make(arena, len, q[1]); break;
        case 1: reply[0] = ds_allocate(arena, len, q[1], q[2], (uint8_t)q[3], &v[0]); reply[1] = 1; break;
        case 2: reply[0] = ds_standing(arena, len, q[1], &v[0], &v[1], &v[2], &v[3]); reply[1] = 4; break;
        case 3: reply[0] = ds_shape(arena, len, q[1], &v[0], &v[1], &v[2]); reply[1] = 3; break;
        case 4: reply[0] = ds_read_reference(arena, len, q[1], q[2], &v[0]); reply[1] = 1; break;
        case 5: reply[0] = ds_write_reference(arena, len, q[1], q[2], q[3]); break;
        case 6: reply[0] = ds_read_plain(arena, len, q[1], q[2], &v[0]); reply[1] = 1; break;
        case 7: reply[0] = ds_write_plain(arena, len, q[1], q[2], q[3]); break;
        case 8: reply[0] = ds_plain_words(arena, len, q[1], &offset, &count); reply[1] = 2; break;
        case 9: reply[0] = ds_room(arena, len, q[1], &v[0]); reply[1] = 1; break;
        case 10: reply[0] = ds_collect(arena, len, roots, root_count, work, work_len, &v[0]); reply[1] = 1; break;
        default: return 1;
        }
        reply[2] = untouched(lent) && untouched(roots - GAP) && untouched(work - GAP) && untouched(work + work_len);
        uint64_t values[4] = {v[0], v[1], v[2], v[3]};
        if (q[0] == 8) {
            values[0] = offset;
            values[1] = count;
        }
        give(reply, 3);
        give(values, 8);
        give(arena, len);
        give(work, work_len);
        if (fflush(stdout)) return 1;
        free(lent);
    }
    return 0;
}
