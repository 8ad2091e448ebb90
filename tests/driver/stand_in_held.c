/* A plain stand-in for the library's bik_why_held, over a bik_collect. With
   bench/peer.c it makes a call that is proved nowhere: it stands here so that
   the driver and the comparison can themselves be tested, with and without
   faults. */
#include <stdlib.h>
#include <string.h>

#include "../../bench/machine.h"
#include "../../include/bikorashen.h"

typedef struct {
    uint32_t *control, *stack, *heap, *trail, *work;
    size_t control_len, stack_len, heap_len, trail_len, work_len;
} image;

/* A breadth-first search. Roots are taken in their order and what a cell refers
   to from the lowest index up, so that the queue has the cells of each length
   by their least chains, and the first way to a cell is its least. */
typedef struct {
    const uint32_t *heap;
    uint32_t *queue; /* cells met, in order */
    uint32_t met;
    /* By cell: the length of its chain, and the one before it there, index + 1;
       for the first one ROOT + its root's number. 0: not met. */
    uint32_t *length, *before;
    uint32_t asked;
} search;

/* Roots by number: the control's words, then the stack's. */
#define ROOT 2147483648u

static void meet(search *s, uint32_t cell, uint32_t before, uint32_t length)
{
    if (s->before[cell])
        return;
    s->before[cell] = before;
    s->length[cell] = length;
    s->queue[s->met++] = cell;
}

static void follow(search *s, uint32_t word, uint32_t before, uint32_t length)
{
    const uint32_t value = value_of(word);
    uint32_t end = value;
    switch (tag_of(word)) {
    case VAR:
        end = value < STACK_BASE ? value + 1 : value;
        break;
    case LIST:
        end = value + 2;
        break;
    case STRUCT:
        end = value + 1 + arity_of(s->heap[value]);
    }
    for (uint32_t cell = value; cell < end; cell++)
        meet(s, cell, before, length);
}

/* The cells of the frames from e on, the first with size_word's size. */
static void note_frames(const uint32_t *stack, uint32_t e, uint32_t size_word,
                        uint8_t *is_cell)
{
    for (; e != NONE; size_word = stack[e + CL], e = stack[e + CE])
        memset(is_cell + e + FRAME_FIXED, 1, size_word % SIZE_END);
}

/* Which stack words are cells. */
static void note_cells(const image *m, uint8_t *is_cell)
{
    note_frames(m->stack, m->control[E], m->control[L], is_cell);
    for (uint32_t b = m->control[B]; b != NONE; b = m->stack[b + B]) {
        const uint32_t *point = m->stack + b;
        memset(is_cell + b + FIXED, 1, point[N]);
        note_frames(m->stack, point[E], point[L], is_cell);
    }
}

static void follow_arguments(search *s, const image *m)
{
    for (uint32_t i = FIXED; i < FIXED + m->control[N]; i++)
        follow(s, m->control[i], ROOT + i, 1);
}

static void follow_stack(search *s, const image *m, const uint8_t *is_cell)
{
    for (uint32_t i = 0; i < m->stack_len; i++)
        if (is_cell[i])
            follow(s, m->stack[i], ROOT + CONTROL_MOST + i, 1);
}

static void follow_cells(search *s)
{
    for (uint32_t i = 0; i < s->met; i++) {
        const uint32_t cell = s->queue[i];
        follow(s, s->heap[cell], cell + 1, s->length[cell] + 1);
    }
}

/* The chain to the asked cell, if the room is long enough for it. */
static bik_held chain_of(const search *s, uint32_t *room, size_t room_len)
{
    const uint32_t length = s->length[s->asked];
    uint32_t before = s->asked + 1;
    if (length > room_len)
        return (bik_held){.refusal = 19};
    for (uint32_t i = length; i-- > 0; before = s->before[before - 1])
        room[i] = before - 1;
    const uint32_t root = before - ROOT;
    const int in_control = root < CONTROL_MOST;
    return (bik_held){.held = 1,
                      .root_area = in_control ? BIK_CONTROL : BIK_STACK,
                      .root_index = in_control ? root : root - CONTROL_MOST,
                      .length = length};
}

static void *taken(size_t count, size_t size)
{
    void *place = calloc(count + 1, size); /* some even if nothing is wanted */
    if (!place)
        abort();
    return place;
}

static uint32_t *copied(const uint32_t *words, size_t count)
{
    uint32_t *copy = taken(count, sizeof *copy);
    if (count)
        memcpy(copy, words, count * sizeof *copy);
    return copy;
}

/* What the collector says of the image, which is not changed by it; the work
   words are left as it leaves them. */
static bik_collected judged(const image *m)
{
    uint32_t *control = copied(m->control, m->control_len);
    uint32_t *stack = copied(m->stack, m->stack_len);
    uint32_t *heap = copied(m->heap, m->heap_len);
    uint32_t *trail = copied(m->trail, m->trail_len);
    const bik_collected answer =
        bik_collect(control, m->control_len, stack, m->stack_len, heap,
                    m->heap_len, trail, m->trail_len, m->work, m->work_len);
    free(control), free(stack), free(heap), free(trail);
    return answer;
}

/* The image is accepted and the cell is below H. */
static bik_held searched(const image *m, uint32_t cell, uint32_t *room,
                         size_t room_len)
{
    uint8_t *is_cell = taken(m->stack_len, 1);
    search s = {.heap = m->heap, .asked = cell};
    s.queue = taken(m->heap_len, sizeof *s.queue);
    s.length = taken(m->heap_len, sizeof *s.length);
    s.before = taken(m->heap_len, sizeof *s.before);
    note_cells(m, is_cell);
    follow_arguments(&s, m);
    follow_stack(&s, m, is_cell);
    follow_cells(&s);
    bik_held answer = {.held = 0};
    if (s.before[cell])
        answer = chain_of(&s, room, room_len);
    free(is_cell), free(s.queue), free(s.length), free(s.before);
    return answer;
}

bik_held bik_why_held(uint32_t *control, size_t control_len, uint32_t *stack,
                      size_t stack_len, uint32_t *heap, size_t heap_len,
                      uint32_t *trail, size_t trail_len, uint32_t *work,
                      size_t work_len, uint32_t cell, uint32_t *room,
                      size_t room_len)
{
    const image m = {control,     stack,     heap,     trail,     work,
                     control_len, stack_len, heap_len, trail_len, work_len};
    const bik_collected verdict = judged(&m);
    if (verdict.refusal)
        return (bik_held){.refusal = verdict.refusal,
                          .area = verdict.area,
                          .index = verdict.index};
    if (cell >= control[H])
        return (bik_held){.refusal = 18};
    return searched(&m, cell, room, room_len);
}
