/* Refusals 5, 6 and 7. One pass decides whether every cell is good; the number
   and the place are looked for only when one is not. */
#ifndef PEER_CHECK_H
#define PEER_CHECK_H

#include "peer_image.h"

/* A fault of one cell. end is the first stack index that a VAR in this cell
   may not name: 0 for a heap cell, which may name none. */
typedef int fault(const image *m, uint32_t word, uint64_t end);

static inline int bits_set(const image *m, uint32_t word, uint64_t end)
{
    (void)m, (void)end;
    return (word & BITS) != 0;
}

static inline int names_no_cell(const image *m, uint32_t value, uint64_t end)
{
    if (value < STACK_BASE)
        return value >= m->control[H];
    return value - STACK_BASE >= end || m->roles[value - STACK_BASE] != IS_CELL;
}

/* A functor at or above H is not read. */
static inline int no_structure(const image *m, uint32_t value)
{
    if (value >= m->control[H])
        return 1;
    const uint32_t functor = m->heap[value], arity = arity_of(functor);
    return tag_of(functor) != CONST || arity == 0 ||
           value + arity >= m->control[H];
}

static inline int refers_wrongly(const image *m, uint32_t word, uint64_t end)
{
    switch (tag_of(word)) {
    case VAR:
        return names_no_cell(m, value_of(word), end);
    case STRUCT:
        return no_structure(m, value_of(word));
    case LIST:
        return value_of(word) + 1 >= m->control[H];
    default:
        return 0;
    }
}

static inline int any_fault(const image *m, uint32_t word, uint64_t end)
{
    return bits_set(m, word, end) || refers_wrongly(m, word, end);
}

/* Each of the three finds the lowest faulty index of an area, or its end. They
   are inlined with the fault known, so that no pass calls through a pointer. */
static inline uint64_t first_in_heap(const image *m, fault *faulty)
{
    const uint64_t end = m->control[H];
    uint64_t i = 0;
    while (i < end && !faulty(m, m->heap[i], 0))
        i++;
    return i;
}

static inline uint64_t first_in_stack(const image *m, fault *faulty)
{
    uint64_t i = 0;
    while (i < m->stack_len &&
           (m->roles[i] != IS_CELL || !faulty(m, m->stack[i], i + 1)))
        i++;
    return i;
}

static inline uint64_t first_in_control(const image *m, fault *faulty)
{
    const uint64_t end = (uint64_t)FIXED + m->control[N];
    uint64_t i = FIXED;
    while (i < end && !faulty(m, m->control[i], m->stack_len))
        i++;
    return i;
}

__attribute__((always_inline)) static inline verdict
first_place(const image *m, uint32_t refusal, fault *faulty)
{
    uint64_t i = first_in_heap(m, faulty);
    if (i < m->control[H])
        return (verdict){refusal, PEER_HEAP, i};
    i = first_in_stack(m, faulty);
    if (i < m->stack_len)
        return (verdict){refusal, PEER_STACK, i};
    i = first_in_control(m, faulty);
    if (i < (uint64_t)FIXED + m->control[N])
        return (verdict){refusal, PEER_CONTROL, i};
    return (verdict){0, PEER_NOWHERE, 0};
}

/* Whether every heap cell has its bits clear and its value below its limit: a
   pass without branches, for the compiler to make wide. */
static int values_good(const uint32_t *heap, uint32_t cells)
{
    uint32_t bad = 0;
    for (uint32_t i = 0; i < cells; i++) {
        const uint32_t word = heap[i], tag = tag_of(word);
        const uint32_t limit = tag == CONST  ? VALUE_END
                               : tag == LIST ? cells - 1
                                             : cells;
        bad |= (word & BITS) | (value_of(word) >= limit);
    }
    return !bad;
}

/* Whether every STRUCT cell has a functor with all its arguments; the values
   are good already. */
static int structures_good(const uint32_t *heap, uint32_t cells)
{
    uint32_t bad = 0;
    for (uint32_t i = 0; i < cells; i++)
        if (tag_of(heap[i]) == STRUCT) {
            const uint32_t functor = heap[value_of(heap[i])];
            const uint32_t last = value_of(heap[i]) + arity_of(functor);
            bad |= tag_of(functor) != CONST;
            bad |= arity_of(functor) == 0;
            bad |= last >= cells;
        }
    return !bad;
}

static int all_cells_good(const image *m)
{
    const uint32_t cells = m->control[H];
    return values_good(m->heap, cells) && structures_good(m->heap, cells) &&
           first_in_stack(m, any_fault) == m->stack_len &&
           first_in_control(m, any_fault) == (uint64_t)FIXED + m->control[N];
}

static verdict check_cells(const image *m)
{
    if (all_cells_good(m))
        return (verdict){0, PEER_NOWHERE, 0};
    const verdict found = first_place(m, 5, bits_set);
    return found.refusal ? found : first_place(m, 6, refers_wrongly);
}

/* Entries are whole addresses. One that names a stack word without a role is
   good: the word is only not a field. */
static inline int entry_good(const image *m, uint32_t entry)
{
    if (entry < m->control[H])
        return 1;
    return entry >= STACK_BASE && entry - STACK_BASE < m->stack_len &&
           (m->roles[entry - STACK_BASE] & ~IS_CELL) == 0;
}

static verdict check_trail(const image *m)
{
    const uint32_t entries = m->control[T];
    for (uint32_t i = 0; i < entries; i++)
        if (!entry_good(m, m->trail[i]))
            return (verdict){7, PEER_TRAIL, i};
    return (verdict){0, PEER_NOWHERE, 0};
}

#endif
