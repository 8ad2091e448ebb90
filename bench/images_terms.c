/* Random terms, a share of them live. */
#include <stdlib.h>

#include "image_parts.h"

enum { MOST_TERM_ARITY = 5, NAMES = 1024 };

/* How many slots there can be, roots and heap cells together. */
enum { SLOTS = HEAP_MOST + STACK_MOST };

/* Free words, by address, that may come to hold a reference. Only the newest
   of them, as many as the window says, are chosen from. */
typedef struct {
    uint32_t *address;
    size_t count, window;
} slots;

static void add_slot(slots *s, uint32_t address)
{
    s->address[s->count++] = address;
}

/* Takes a slot out at random; there must be one. */
static uint32_t take_slot(slots *s)
{
    const size_t seen = s->count < s->window ? s->count : s->window;
    const size_t i = s->count - 1 - chance((uint32_t)seen);
    const uint32_t taken = s->address[i];
    s->address[i] = s->address[--s->count];
    return taken;
}

/* Lays objects over the heap: a pair, a structure, or one cell. Each is kept
   as the word that refers to it. Answers how many there are. */
static size_t lay_objects(areas *to, uint32_t *objects)
{
    const uint32_t end = (uint32_t)to->heap_len;
    size_t count = 0;
    for (uint32_t i = 0; i < end;) {
        const uint32_t arity = 1 + chance(MOST_TERM_ARITY), sort = chance(4);
        if (sort < 2 && i + arity < end) {
            to->heap[i] = functor(arity, arity);
            objects[count++] = cell(i, STRUCT);
            i += 1 + arity;
        } else if (sort == 2 && i + 1 < end) {
            objects[count++] = cell(i, LIST);
            i += 2;
        } else {
            objects[count++] = cell(i, VAR);
            i += 1;
        }
    }
    return count;
}

/* Makes the cells of an object slots; a functor's cell is none. */
static void open_object(const areas *to, uint32_t object, slots *s)
{
    const uint32_t at = value_of(object), tag = tag_of(object);
    const uint32_t first = tag == STRUCT ? at + 1 : at;
    const uint32_t last = tag == STRUCT ? at + arity_of(to->heap[at])
                          : tag == LIST ? at + 1
                                        : at;
    for (uint32_t i = first; i <= last; i++)
        add_slot(s, i);
}

/* What stays free becomes an unbound VAR, a constant, or a VAR that names
   another cell of the same slots. Stack slots stay constants. */
static void fill_rest(areas *to, const slots *s)
{
    for (size_t i = 0; i < s->count; i++) {
        const uint32_t own = s->address[i];
        const uint32_t other = s->address[chance((uint32_t)s->count)];
        if (own >= STACK_BASE)
            continue;
        switch (chance(4)) {
        case 0:
            to->heap[own] = cell(other < STACK_BASE ? other : own, VAR);
            break;
        case 1:
            to->heap[own] = cell(own, VAR);
            break;
        default:
            to->heap[own] = cell(i % NAMES, CONST);
        }
    }
}

/* Hangs every object into a free word of its world, live or dead. The live
   world starts with the cells of the stack, the dead one with none. */
static void hang_objects(areas *to, const uint32_t *objects, size_t count,
                         uint32_t live_percent, slots *live, slots *dead)
{
    for (size_t i = 0; i < count; i++) {
        slots *world = chance(100) < live_percent ? live : dead;
        if (world->count)
            *word_at(to, take_slot(world)) = objects[i];
        open_object(to, objects[i], world);
    }
}

/* The window is HEAP_MOST for references that lead anywhere, or small for terms
   that lie as an engine builds them, each near to what it refers to. */
static void make_terms(areas *to, size_t size, uint32_t live_percent,
                       size_t window)
{
    uint32_t *room = malloc(3 * SLOTS * sizeof *room);
    if (!room)
        abort();
    slots live = {room + SLOTS, 0, window};
    slots dead = {room + 2 * SLOTS, 0, window};
    start_plain(to, size);
    const uint32_t frame = to->control[E] + FRAME_FIXED;
    for (uint32_t i = 0; i < to->control[L]; i++)
        add_slot(&live, STACK_BASE + frame + i);
    const size_t count = lay_objects(to, room);
    if (window == HEAP_MOST)
        shuffle(room, count);
    hang_objects(to, room, count, live_percent, &live, &dead);
    fill_rest(to, &live);
    fill_rest(to, &dead);
    free(room);
    leave_functors(to);
}

enum { NEAR = 4, ANYWHERE = HEAP_MOST };

void terms_1(areas *to, size_t size) { make_terms(to, size, 1, ANYWHERE); }
void terms_50(areas *to, size_t size) { make_terms(to, size, 50, ANYWHERE); }
void terms_99(areas *to, size_t size) { make_terms(to, size, 99, ANYWHERE); }
void terms_near(areas *to, size_t size) { make_terms(to, size, 50, NEAR); }
void all_dead(areas *to, size_t size) { make_terms(to, size, 0, ANYWHERE); }
