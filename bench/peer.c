/* The two calls of the peer. */
#include "peer.h"

#include <string.h>

#include "peer_check.h"
#include "peer_functor.h"
#include "peer_image.h"
#include "peer_mark.h"
#include "peer_roles.h"
#include "peer_slide.h"

const char peer_name[] = "peer";

static int bad_sizes(const image *m)
{
    return m->heap_len > HEAP_MOST || m->stack_len > STACK_MOST ||
           m->trail_len > TRAIL_MOST || m->control_len < FIXED ||
           m->control_len > CONTROL_MOST ||
           m->work_len < m->heap_len + m->stack_len;
}

static int bad_counts(const image *m)
{
    return m->control[T] > m->trail_len || m->control[H] > m->heap_len ||
           (uint64_t)FIXED + m->control[N] > m->control_len;
}

/* An empty area may come without a place, which memset does not take. */
static void clear(uint32_t *words, size_t count)
{
    if (count)
        memset(words, 0, count * sizeof *words);
}

static void clear_work(const image *m)
{
    clear(m->work, m->heap_len + m->stack_len);
}

/* Refusals 1 to 7 and 17 in their order. The work words hold anything at entry;
   they are cleared for the roles, and from 2 on a refusal clears them again. A
   sound image leaves only the roles in them. */
static verdict admit(image *m)
{
    if (bad_sizes(m))
        return (verdict){1, PEER_NOWHERE, 0};
    clear_work(m);
    m->roles = m->work + m->heap_len;
    if (bad_counts(m))
        return (verdict){2, PEER_NOWHERE, 0};
    verdict found = check_chains(m);
    if (!found.refusal)
        found = check_cells(m);
    if (!found.refusal)
        found = check_trail(m);
    if (!found.refusal)
        found = check_functors(m);
    if (found.refusal)
        clear_work(m);
    else
        clear(m->work, m->control[H]);
    return found;
}

peer_collected peer_collect(uint32_t *control, size_t control_len,
                            uint32_t *stack, size_t stack_len,
                            uint32_t *heap, size_t heap_len,
                            uint32_t *trail, size_t trail_len,
                            uint32_t *work, size_t work_len)
{
    image m = {control,     stack,     heap,     trail,     work,
               control_len, stack_len, heap_len, trail_len, work_len,
               NULL,        NONE,      0,        0};
    const verdict found = admit(&m);
    if (found.refusal)
        return (peer_collected){.refusal = found.refusal,
                                .area = found.area,
                                .index = found.index};
    const uint32_t cells = control[H], entries = control[T];
    mark(&m);
    const uint32_t cells_kept = close_heap(heap, work, cells);
    const uint32_t entries_kept = move_boundaries(&m, cells, cells_kept);
    move_heap(heap, cells_kept, work);
    move_stack(&m);
    move_control(&m);
    control[T] = entries_kept;
    control[H] = cells_kept;
    clear(heap + cells_kept, cells - cells_kept);
    clear(trail + entries_kept, entries - entries_kept);
    clear_work(&m);
    return (peer_collected){.cells_kept = cells_kept,
                            .cells_dropped = cells - cells_kept,
                            .entries_kept = entries_kept,
                            .entries_dropped = entries - entries_kept};
}

/* Sets the cell of each trail entry of [from, to) to unbound. */
static void undo(const image *m, uint32_t from, uint32_t to)
{
    for (uint32_t i = from; i < to; i++) {
        const uint32_t entry = m->trail[i];
        if (entry < STACK_BASE)
            m->heap[entry] = cell(entry, VAR);
        else
            m->stack[entry - STACK_BASE] = cell(entry, VAR);
    }
}

peer_stepped peer_step_back(uint32_t *control, size_t control_len,
                            uint32_t *stack, size_t stack_len,
                            uint32_t *heap, size_t heap_len,
                            uint32_t *trail, size_t trail_len,
                            uint32_t *work, size_t work_len)
{
    image m = {control,     stack,     heap,     trail,     work,
               control_len, stack_len, heap_len, trail_len, work_len,
               NULL,        NONE,      0,        0};
    const verdict found = admit(&m);
    if (found.refusal)
        return (peer_stepped){found.refusal, found.area, found.index, 0};
    clear_work(&m);
    if (control[B] == NONE)
        return (peer_stepped){8, PEER_NOWHERE, 0, 0};
    const uint32_t *point = stack + control[B];
    const size_t words = FIXED + point[N];
    if (words > control_len)
        return (peer_stepped){9, PEER_NOWHERE, 0, 0};
    const uint64_t undone = control[T] - point[T];
    undo(&m, point[T], control[T]);
    memcpy(control, point, words * sizeof *control);
    return (peer_stepped){0, PEER_NOWHERE, 0, undone};
}
