/*
 * Takes the place of the memory of Rattle's std, and refuses one growth of the program that it is linked with.
 *
 * The program speaks to it by sizes that no vector has. One of ARM and a number has the growth of that number
 * refused, counted from there on. One of ASK ends that, and is granted only where that growth came. Neither is a
 * growth itself.
 */
#include <stddef.h>
#include <stdlib.h>

#define ARM ((size_t)0x400000000000)
#define ASK ((size_t)0x500000000000)
#define NUMBERS ((size_t)1000000)

/* What std gets: whether there is memory, and where. */
struct room {
    size_t is_granted;
    void *at;
};

/* How many growths come up to the one that is refused: 0 behind it, and below 0 where none is to be refused. */
static long left = -1;
static size_t nowhere[2];

static struct room room_at(void *at)
{
    struct room room = { at != NULL, at != NULL ? at : nowhere };
    return room;
}

static int is_refused(void)
{
    if (left <= 0)
        return 0;
    left--;
    return left == 0;
}

struct room rattle_alloc(size_t size, size_t align)
{
    if (size >= ARM && size < ARM + NUMBERS) {
        left = (long)(size - ARM);
        return room_at(NULL);
    }
    if (size == ASK) {
        int came = left == 0;
        left = -1;
        return room_at(came ? malloc(16) : NULL);
    }
    if (is_refused())
        return room_at(NULL);
    return room_at(malloc(size == 0 ? align : size));
}

struct room rattle_realloc(void *old, size_t old_size, size_t size, size_t align)
{
    (void)old_size;
    if (is_refused())
        return room_at(NULL);
    return room_at(realloc(old, size == 0 ? align : size));
}

void rattle_dealloc(void *at)
{
    free(at);
}
