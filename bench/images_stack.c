/* Images whose burden is the stack and the trail. */
#include "image_parts.h"

/* At the full size: 18,000 choice points over one chain of 65,000 frames. */
enum { FRAMES_FULL = 65000, POINTS_FULL = 18000, TOP_SIZE = 200 };
enum { FRAMES_A_CELL = 16, HEAP_SHARE = 16 };

static uint32_t share(uint32_t full, size_t size)
{
    return (uint32_t)((uint64_t)full * size / HEAP_MOST);
}

/* Every second choice point sees the whole chain, its top frame with a size of
   its own; the others see the chain from somewhere below. */
void shared_frames(areas *to, size_t size)
{
    const uint32_t frames = share(FRAMES_FULL, size);
    const uint32_t points = share(POINTS_FULL, size);
    uint32_t middle = NONE;
    start(to, size / HEAP_SHARE, size / HEAP_SHARE);
    for (uint32_t i = 0; i < frames; i++) {
        const uint32_t cells = i % FRAMES_A_CELL == 0;
        const uint32_t at = push_frame(to, i + 1 < frames ? cells : TOP_SIZE);
        if (cells)
            to->stack[at] = cell(i % to->control[H], VAR);
        if (i == frames / 2)
            middle = to->control[E];
    }
    for (uint32_t i = 0; i < points; i++) {
        push_choice_point(to, 0, (uint32_t)(to->trail_len * i / points),
                          (uint32_t)(to->heap_len * i / points));
        uint32_t *point = to->stack + to->control[B];
        point[L] = i % 2 ? 0 : chance(TOP_SIZE + 1);
        point[E] = i % 2 ? middle : to->control[E];
    }
    for (size_t i = 0; i < to->trail_len; i++)
        to->trail[i] = chance((uint32_t)to->heap_len);
}

/* At the full size: 262,144 entries under 8,000 choice points. Half of the
   entries name heap cells, of which every second one is reached; the others
   name saved arguments and, between them, stack words without a role. */
enum { TRAIL_POINTS_FULL = 8000, SAVED = 4, NO_ROLE = 2, FIRST_FRAMES = 8 };

void full_trail(areas *to, size_t size)
{
    const uint32_t points = share(TRAIL_POINTS_FULL, size);
    const uint32_t cells = (uint32_t)(size / 4);
    start(to, cells, size / 4);
    for (int i = 0; i < FIRST_FRAMES; i++)
        push_frame(to, SAVED);
    const uint32_t base = (uint32_t)to->stack_len;
    const uint32_t step = FIXED + SAVED + NO_ROLE;
    for (uint32_t i = 0; i < points; i++) {
        push_choice_point(to, SAVED, (uint32_t)(to->trail_len * i / points),
                          (uint32_t)((uint64_t)cells * i / points));
        for (int j = 0; j < NO_ROLE; j++)
            to->stack[to->stack_len++] = 0;
    }
    for (uint32_t i = 0; i + 2 < cells; i += 2)
        to->heap[i] = cell(i + 2, VAR);
    to->control[FIXED] = cell(0, VAR);
    for (size_t i = 0; i < to->trail_len; i++)
        to->trail[i] = chance(2) ? chance(cells)
                                 : STACK_BASE + base + chance(points) * step +
                                       FIXED + chance(SAVED + NO_ROLE);
}
