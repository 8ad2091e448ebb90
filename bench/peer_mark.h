/* Which heap cells are reached. Marks and the stack of pending cells share one
   work word a cell: a marked cell holds the link to the next pending one. */
#ifndef PEER_MARK_H
#define PEER_MARK_H

#include "peer_image.h"

/* All three answer the new top of the pending cells, index + 1, 0 for none. */

/* Marks a cell; one that refers to nothing is not pended. */
static inline uint32_t mark_cell(const uint32_t *heap, uint32_t *work,
                                 uint32_t i, uint32_t top)
{
    if (work[i])
        return top;
    work[i] = KEPT | top;
    return tag_of(heap[i]) == CONST ? top : i + 1;
}

/* Marks a structure's cells, from i to end. */
static inline uint32_t mark_structure(const uint32_t *heap, uint32_t *work,
                                      uint32_t i, uint32_t end, uint32_t top)
{
    for (; i < end; i++)
        top = mark_cell(heap, work, i, top);
    return top;
}

/* The image is sound, so no reference has to be doubted, and a structure whose
   first cell is marked is passed over: only a STRUCT marks that cell, and with
   it the others (refusal 17). */
static void mark_from(const uint32_t *heap, uint32_t *work, uint32_t word)
{
    for (uint32_t top = 0;;) {
        const uint32_t value = value_of(word);
        switch (tag_of(word)) {
        case VAR:
            if (value < STACK_BASE)
                top = mark_cell(heap, work, value, top);
            break;
        case LIST:
            top = mark_cell(heap, work, value, top);
            top = mark_cell(heap, work, value + 1, top);
            break;
        case STRUCT:
            if (work[value])
                break;
            top = mark_structure(heap, work, value,
                                 value + 1 + arity_of(heap[value]), top);
        }
        if (top == 0)
            return;
        word = heap[top - 1];
        top = work[top - 1] & LINK_MASK;
    }
}

/* The roots are the control's saved arguments and the stack's cells. */
static void mark(const image *m)
{
    for (uint32_t i = FIXED; i < FIXED + m->control[N]; i++)
        mark_from(m->heap, m->work, m->control[i]);
    for (size_t i = 0; i < m->stack_len; i++)
        if (m->roles[i] == IS_CELL)
            mark_from(m->heap, m->work, m->stack[i]);
}

#endif
