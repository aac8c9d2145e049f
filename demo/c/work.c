/* The library's memory: pieces of a buffer of the caller's, one behind another. All of them are given back at the next fwu_work.
 * A board takes this file as it stands, or writes the three functions over a heap of its own. */
#include "fwu.h"

#define ALIGNED 16 /* bytes: what the library's pieces ask for at most */

/* What the library is answered: whether there was memory, and the piece. The piece is never null. */
struct tried {
    bool there_is;
    uint8_t *piece;
};

static uint8_t nothing;
static uint8_t *first, *next, *last, *end;
static size_t most;

void fwu_work(void *memory, size_t size) {
    size_t skip = (ALIGNED - ((uintptr_t)memory & (ALIGNED - 1))) & (ALIGNED - 1);
    first = next = (uint8_t *)memory + (skip < size ? skip : size);
    end = (uint8_t *)memory + size;
    last = NULL;
}

size_t fwu_work_most(void) { return most; }

static struct tried take(size_t size) {
    size_t room = (size_t)(end - next);
    if (!next || size > room || room - size < (ALIGNED - size % ALIGNED) % ALIGNED)
        return (struct tried){false, &nothing};
    last = next;
    next += size + (ALIGNED - size % ALIGNED) % ALIGNED;
    if ((size_t)(next - first) > most) most = (size_t)(next - first);
    return (struct tried){true, last};
}

struct tried rattle_alloc(size_t size, size_t align) {
    (void)align;
    return take(size);
}

void rattle_dealloc(uint8_t *piece) { (void)piece; }

struct tried rattle_realloc(uint8_t *piece, size_t kept, size_t size, size_t align) {
    (void)align;
    if (piece == last) { /* the last piece grows where it is */
        uint8_t *was = next;
        next = piece;
        struct tried grown = take(size);
        if (!grown.there_is) next = was;
        return grown;
    }
    struct tried moved = take(size);
    for (size_t i = 0; moved.there_is && i < kept && i < size; i++) moved.piece[i] = piece[i];
    return moved;
}
