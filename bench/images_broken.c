/* What makes a sound image a refused one. Each fault stands where its check
   comes last, so that a refusal costs as much as it can. */
#include "image_parts.h"

/* A LIST that needs one more cell than the heap has. */
static void spoil_reference(areas *to)
{
    to->heap[to->control[H] - 1] = cell(to->control[H] - 1, LIST);
}

static void spoil_bits(areas *to) { to->heap[to->control[H] - 1] |= BIT_M; }

static uint32_t oldest_choice_point(const areas *in)
{
    uint32_t b = in->control[B];
    while (in->stack[b + B] != NONE)
        b = in->stack[b + B];
    return b;
}

/* The far end of the oldest choice point's chain of frames. */
static uint32_t last_frame(const areas *in)
{
    uint32_t e = in->stack[oldest_choice_point(in) + E];
    while (in->stack[e + CE] != NONE)
        e = in->stack[e + CE];
    return e;
}

/* The last frame of the chain names itself. */
static void spoil_chain(areas *to)
{
    const uint32_t e = last_frame(to);
    to->stack[e + CL] = 0;
    to->stack[e + CE] = e;
}

/* The oldest choice point sees the last frame large enough to cover the
   frames above it. */
static void spoil_roles(areas *to)
{
    uint32_t *point = to->stack + oldest_choice_point(to);
    const uint32_t e = last_frame(to);
    const uint32_t room = oldest_choice_point(to) - e - FRAME_FIXED;
    point[E] = e;
    point[L] = room < MOST_SIZE ? room : MOST_SIZE;
}

static void spoil_trail(areas *to)
{
    to->trail[to->control[T] - 1] = to->control[H];
}

/* The last trail entry names a functor's cell. The structure is its own only
   argument, in the last cell. */
static void spoil_functor(areas *to)
{
    const uint32_t first = to->control[H] - 2;
    to->heap[first] = cell(ARITY_END + 1, CONST);
    to->heap[first + 1] = cell(first, STRUCT);
    to->trail[to->control[T] - 1] = first;
}

const damage damages[] = {
    {"broken chain at the far end", 3, spoil_chain},
    {"two roles at the far end", 4, spoil_roles},
    {"bit m in the last cell", 5, spoil_bits},
    {"wrong reference in the last cell", 6, spoil_reference},
    {"wrong last trail entry", 7, spoil_trail},
    {"last trail entry on a functor", 17, spoil_functor},
};
const size_t damage_count = sizeof damages / sizeof *damages;
