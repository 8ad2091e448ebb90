#define _POSIX_C_SOURCE 199309L
#include "measure.h"

#include <stdlib.h>
#include <string.h>
#include <time.h>

#include "machine.h"
#include "product.h"

typedef peer_collected collector(uint32_t *, size_t, uint32_t *, size_t,
                                 uint32_t *, size_t, uint32_t *, size_t,
                                 uint32_t *, size_t);

/* The work words lent past heap + stack, which no call may change. */
enum { PAST = 16, JUNK = 0xA5, WORK_MOST = HEAP_MOST + STACK_MOST + PAST };

typedef struct {
    areas in;
    uint32_t *work;
} desk;

static uint32_t *new_words(size_t count)
{
    uint32_t *words = calloc(count, sizeof *words);
    if (!words)
        abort();
    return words;
}

areas new_areas(void)
{
    return (areas){.control = new_words(CONTROL_MOST),
                   .stack = new_words(STACK_MOST),
                   .heap = new_words(HEAP_MOST),
                   .trail = new_words(TRAIL_MOST)};
}

/* The timed calls all use one desk, so that no collector has the luck of
   better placed memory. The second one only holds a result for comparison. */
static desk *desk_number(int i)
{
    static desk desks[2];
    if (!desks[i].work)
        desks[i] = (desk){new_areas(), new_words(WORK_MOST)};
    return desks + i;
}

static void copy_words(uint32_t *to, const uint32_t *from, size_t count)
{
    memcpy(to, from, count * sizeof *to);
}

static void lay(desk *on, const areas *image)
{
    const areas to = on->in;
    on->in = *image;
    on->in.control = to.control;
    on->in.stack = to.stack;
    on->in.heap = to.heap;
    on->in.trail = to.trail;
    copy_words(to.control, image->control, image->control_len);
    copy_words(to.stack, image->stack, image->stack_len);
    copy_words(to.heap, image->heap, image->heap_len);
    copy_words(to.trail, image->trail, image->trail_len);
}

static size_t work_len(const desk *on)
{
    return on->in.heap_len + on->in.stack_len + PAST;
}

static peer_collected run(collector *collect, desk *on)
{
    const areas *in = &on->in;
    return collect(in->control, in->control_len, in->stack, in->stack_len,
                   in->heap, in->heap_len, in->trail, in->trail_len, on->work,
                   work_len(on));
}

static int same_words(const uint32_t *one, const uint32_t *other, size_t count)
{
    return memcmp(one, other, count * sizeof *one) == 0;
}

static int same_desk(const desk *one, const desk *other)
{
    const areas *a = &one->in, *b = &other->in;
    return same_words(a->control, b->control, a->control_len) &&
           same_words(a->stack, b->stack, a->stack_len) &&
           same_words(a->heap, b->heap, a->heap_len) &&
           same_words(a->trail, b->trail, a->trail_len) &&
           same_words(one->work, other->work, work_len(one));
}

static int same_answer(const peer_collected *a, const peer_collected *b)
{
    return a->refusal == b->refusal && a->area == b->area &&
           a->index == b->index && a->cells_kept == b->cells_kept &&
           a->cells_dropped == b->cells_dropped &&
           a->entries_kept == b->entries_kept &&
           a->entries_dropped == b->entries_dropped;
}

static peer_collected run_on_junk(collector *collect, desk *on,
                                  const areas *image)
{
    lay(on, image);
    memset(on->work, JUNK, WORK_MOST * sizeof *on->work);
    return run(collect, on);
}

int agree(const areas *image, peer_collected *answer)
{
    desk *mine = desk_number(0), *yours = desk_number(1);
    *answer = run_on_junk(peer_collect, mine, image);
    const peer_collected other = run_on_junk(product_collect, yours, image);
    return same_answer(answer, &other) && same_desk(mine, yours);
}

static double cpu_milliseconds(void)
{
    struct timespec now;
    clock_gettime(CLOCK_THREAD_CPUTIME_ID, &now);
    return now.tv_sec * 1e3 + now.tv_nsec / 1e6;
}

/* One timed call; keeps the lowest. The copy before it is not timed. */
static void time_one(collector *collect, const areas *image, double *lowest)
{
    desk *on = desk_number(0);
    lay(on, image);
    const double before = cpu_milliseconds();
    run(collect, on);
    const double taken = cpu_milliseconds() - before;
    if (*lowest < 0 || taken < *lowest)
        *lowest = taken;
}

/* Interleaved, and each goes first in every second repetition. */
figures measure(const areas *image, int repetitions)
{
    figures lowest = {-1, -1};
    for (int i = 0; i < repetitions; i++) {
        if (i % 2)
            time_one(product_collect, image, &lowest.product);
        time_one(peer_collect, image, &lowest.peer);
        if (i % 2 == 0)
            time_one(product_collect, image, &lowest.product);
    }
    return lowest;
}
