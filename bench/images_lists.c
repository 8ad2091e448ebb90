/* Lists, one pair after the other in some order, and structures that are met
   again and again: shared tariff terms. */
#include <stdlib.h>

#include "image_parts.h"

/* The list whose pairs stand at the given heap indexes, in that order. */
static void link_pairs(areas *to, const uint32_t *pairs, size_t count,
                       uint32_t root)
{
    uint32_t *holder = to->control + root;
    for (size_t i = 0; i < count; i++) {
        *holder = cell(pairs[i], LIST);
        holder = to->heap + pairs[i] + 1;
    }
    *holder = cell(0, CONST);
}

typedef uint32_t order(uint32_t position, uint32_t count);

static uint32_t rising(uint32_t i, uint32_t count) { return (void)count, i; }
static uint32_t falling(uint32_t i, uint32_t count) { return count - 1 - i; }
static uint32_t zigzag(uint32_t i, uint32_t count)
{
    return i % 2 ? count - 1 - i / 2 : i / 2;
}

static uint32_t *pairs_from(size_t first, size_t count, order *of)
{
    uint32_t *pairs = malloc((count + 1) * sizeof *pairs);
    if (!pairs)
        abort();
    for (size_t i = 0; i < count; i++)
        pairs[i] = (uint32_t)first + 2 * of((uint32_t)i, (uint32_t)count);
    return pairs;
}

static void make_list(areas *to, size_t size, order *of, int shuffled)
{
    start_plain(to, size);
    uint32_t *pairs = pairs_from(0, size / 2, of);
    if (shuffled)
        shuffle(pairs, size / 2);
    link_pairs(to, pairs, size / 2, FIXED);
    free(pairs);
}

void list_rising(areas *to, size_t size) { make_list(to, size, rising, 0); }
void list_falling(areas *to, size_t size) { make_list(to, size, falling, 0); }
void list_zigzag(areas *to, size_t size) { make_list(to, size, zigzag, 0); }
void list_shuffled(areas *to, size_t size) { make_list(to, size, rising, 1); }

/* The rising list with one structure of arity 1 in place of its first pair, for
   an element: as long as a list without, and refusal 17 has to be looked for. */
void list_and_structure(areas *to, size_t size)
{
    const size_t first = 2, count = (size - first) / 2;
    start_plain(to, size);
    to->heap[0] = functor(1, 1);
    uint32_t *pairs = pairs_from(first, count, rising);
    link_pairs(to, pairs, count, FIXED);
    to->heap[pairs[0]] = cell(0, STRUCT);
    free(pairs);
    leave_functors(to);
}

/* Structures of arity 255 from 0 on, and a list over the rest of the heap whose
   elements are these structures by turns, shuffled. */
static void make_wide(areas *to, size_t size, size_t structures)
{
    const size_t each = 1 + MOST_ARITY, first = each * structures;
    const size_t count = (size - first) / 2;
    start_plain(to, size);
    for (size_t i = 0; i < structures; i++)
        to->heap[each * i] = functor(1, MOST_ARITY);
    uint32_t *pairs = pairs_from(first, count, rising);
    link_pairs(to, pairs, count, FIXED);
    shuffle(pairs, count);
    for (size_t i = 0; i < count; i++)
        to->heap[pairs[i]] = cell((uint32_t)(each * (i % structures)), STRUCT);
    free(pairs);
    leave_functors(to);
}

void wide_structure(areas *to, size_t size) { make_wide(to, size, 1); }

/* They take half of the heap. */
void wide_structures(areas *to, size_t size)
{
    make_wide(to, size, size / 2 / (1 + MOST_ARITY));
}

/* At the full size 1,000 tables of arity 255 from 0 on, and tickets over the
   rest of the heap: structures whose arguments are tables at random, about
   700,000 of them, and last the next ticket. */
enum { CELLS_A_TABLE = 1048, TICKET_ARITY = 16 };

void tariff_tables(areas *to, size_t size)
{
    const uint32_t tables = (uint32_t)(size / CELLS_A_TABLE);
    const uint32_t each = 1 + MOST_ARITY, step = 1 + TICKET_ARITY;
    uint32_t *holder = to->control + FIXED;
    start_plain(to, size);
    for (uint32_t i = 0; i < tables; i++)
        to->heap[each * i] = functor(1, MOST_ARITY);
    for (uint32_t at = each * tables; at + step <= size; at += step) {
        *holder = cell(at, STRUCT);
        to->heap[at] = functor(2, TICKET_ARITY);
        for (uint32_t i = 1; i < TICKET_ARITY; i++)
            to->heap[at + i] = cell(each * chance(tables), STRUCT);
        holder = to->heap + at + TICKET_ARITY;
    }
    leave_functors(to);
}
