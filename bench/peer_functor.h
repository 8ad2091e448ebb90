/* Refusal 17: references to a functor's cell. While it is looked for, the work
   word of a heap cell below H tells how many first cells of structures stand
   below it; so two of them answer for a reference, however many cells it has. */
#ifndef PEER_FUNCTOR_H
#define PEER_FUNCTOR_H

#include "peer_check.h"

static inline void note_functor(const image *m, uint32_t word)
{
    if (tag_of(word) == STRUCT)
        m->work[value_of(word)] = 1;
}

/* The first cells of what every STRUCT cell refers to, dead or not; then how
   many are below each cell. Those of the whole heap are left in m. */
static void count_functors(image *m)
{
    for (uint32_t i = 0; i < m->control[H]; i++)
        note_functor(m, m->heap[i]);
    for (size_t i = 0; i < m->stack_len; i++)
        if (m->roles[i] == IS_CELL)
            note_functor(m, m->stack[i]);
    for (uint32_t i = FIXED; i < FIXED + m->control[N]; i++)
        note_functor(m, m->control[i]);
    m->functors = 0;
    for (uint32_t i = 0; i < m->control[H]; i++) {
        const uint32_t here = m->work[i];
        m->work[i] = m->functors;
        m->functors += here;
    }
}

/* Whether a first cell is among count cells from index on; they end at or
   below H. */
static inline int has_functor(const image *m, uint32_t index, uint32_t count)
{
    const uint32_t end = index + count;
    const uint32_t below = end < m->control[H] ? m->work[end] : m->functors;
    return count != 0 && below != m->work[index];
}

static inline int names_functor(const image *m, uint32_t word, uint64_t end)
{
    const uint32_t value = value_of(word);
    (void)end;
    switch (tag_of(word)) {
    case VAR:
        return value < STACK_BASE && has_functor(m, value, 1);
    case LIST:
        return has_functor(m, value, 2);
    case STRUCT:
        return has_functor(m, value + 1, arity_of(m->heap[value]));
    default:
        return 0;
    }
}

/* The cells and entries are good already. */
static verdict check_functors(image *m)
{
    count_functors(m);
    const verdict found = first_place(m, 17, names_functor);
    if (found.refusal)
        return found;
    for (uint32_t i = 0; i < m->control[T]; i++)
        if (m->trail[i] < STACK_BASE && has_functor(m, m->trail[i], 1))
            return (verdict){17, PEER_TRAIL, i};
    return found;
}

#endif
