/* What a collection leaves: counts below, heap, trail, stack and control. */
#ifndef PEER_SLIDE_H
#define PEER_SLIDE_H

#include "peer_image.h"

/* Turns each mark into d(i) and closes the kept cells up, their values still
   the old ones. Every cell is written down and only a kept one stays, so that
   no branch has to be guessed. Answers the number of kept cells. */
static uint32_t close_heap(uint32_t *restrict heap, uint32_t *restrict work,
                           uint32_t cells)
{
    uint32_t kept = 0;
    for (uint32_t i = 0; i < cells; i++) {
        const uint32_t mark = work[i] & KEPT;
        work[i] = mark | kept;
        heap[kept] = heap[i];
        kept += mark != 0;
    }
    return kept;
}

/* A word whose value v in the heap becomes d(v). The shift drops KEPT. */
static inline uint32_t moved(const uint32_t *work, uint32_t word)
{
    if (tag_of(word) == CONST || value_of(word) >= STACK_BASE)
        return word;
    return work[value_of(word)] << VALUE_SHIFT | (word & LOW_PART);
}

/* The heap's cells all refer to the heap. Of a constant the mask is 0: it looks
   up work[0] in vain and stays, again without a branch. */
static void move_heap(uint32_t *restrict heap, uint32_t kept,
                      const uint32_t *restrict work)
{
    for (uint32_t i = 0; i < kept; i++) {
        const uint32_t word = heap[i];
        const uint32_t mask = -(uint32_t)(tag_of(word) != CONST);
        const uint32_t below = work[value_of(word) & mask];
        const uint32_t turned = below << VALUE_SHIFT | (word & LOW_PART);
        heap[i] = (turned & mask) | (word & ~mask);
    }
}

static void move_control(const image *m)
{
    for (uint32_t i = FIXED; i < FIXED + m->control[N]; i++)
        m->control[i] = moved(m->work, m->control[i]);
}

static void move_stack(const image *m)
{
    for (size_t i = 0; i < m->stack_len; i++)
        if (m->roles[i] == IS_CELL)
            m->stack[i] = moved(m->work, m->stack[i]);
}

/* Closes the kept entries of [from, to) up at kept; answers the new kept. */
static uint32_t close_trail(const image *m, uint32_t from, uint32_t to,
                            uint32_t kept)
{
    for (uint32_t i = from; i < to; i++) {
        const uint32_t entry = m->trail[i];
        const uint32_t mark = *work_of(m, entry);
        m->trail[kept] = entry < STACK_BASE ? mark & ~KEPT : entry;
        kept += (mark & KEPT) != 0;
    }
    return kept;
}

/* d(boundary); the boundary H itself has no work word. */
static inline uint32_t count_below(const image *m, uint32_t boundary,
                                   uint32_t cells, uint32_t kept)
{
    return boundary < cells ? m->work[boundary] & ~KEPT : kept;
}

/* Closes the trail up and moves every T and H, from the oldest choice point to
   the newest, since the kept entries below each T are then just counted.
   Answers the number of entries kept. */
static uint32_t move_boundaries(const image *m, uint32_t cells,
                                uint32_t cells_kept)
{
    uint32_t next = m->oldest == NONE ? 0 : m->oldest + 1, passed = 0, kept = 0;
    while (next != 0) {
        uint32_t *point = m->stack + (next - 1);
        kept = close_trail(m, passed, point[T], kept);
        passed = point[T];
        point[T] = kept;
        point[H] = count_below(m, point[H], cells, cells_kept);
        next = m->roles[next - 1] >> NOTE_SHIFT & NOTE_MASK;
    }
    return close_trail(m, passed, m->control[T], kept);
}

#endif
