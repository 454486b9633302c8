/* Memory, as edge.c says: the three functions of it that a library needs, which packaging/library.sh has alone. */
#include <stddef.h>
#include <stdint.h>
#include <stdlib.h>

/* What the two that get memory answer: whether there is some, and where. The flag takes a whole register, 0 or 1.
 * Where there is none the pointer isn't null: it is that of a byte of ours, which nobody owns. */
struct tried {
    uint64_t ok;
    void *place;
};

static char nothing;

static struct tried told(void *place)
{
    return (struct tried){place != NULL, place ? place : &nothing};
}

/* Room for `size` bytes, aligned to `alignment`. That divides 16, as malloc aligns, and `size` is below 2^63. A size
 * of 0 is room for nothing, which is a place of its own too, aligned and to be freed: so malloc is asked for a byte
 * or more. */
struct tried rattle_alloc(size_t size, size_t alignment)
{
    return told(malloc(size ? size : alignment));
}

/* Makes the room at `place`, which one of these two gave, one of `size` bytes. It may move. Its first `kept` bytes
 * stay, and neither room is smaller than that. (realloc keeps all that both have.) Where there is no memory the room
 * is as it was. */
struct tried rattle_realloc(void *place, size_t kept, size_t size, size_t alignment)
{
    (void)kept;
    return told(realloc(place, size ? size : alignment));
}

/* Frees what either gave. */
void rattle_dealloc(void *place)
{
    free(place);
}
