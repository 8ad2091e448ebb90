/* The table of kinds, and what their makers share. */
#include "images.h"

#include <stdlib.h>

#include "image_parts.h"

const kind kinds[] = {
    {"terms, 1 % live", terms_1},
    {"terms, 50 % live", terms_50},
    {"terms, 99 % live", terms_99},
    {"terms built near, 50 % live", terms_near},
    {"terms, all dead", all_dead},
    {"list, rising", list_rising},
    {"list, falling", list_falling},
    {"list, zigzag", list_zigzag},
    {"list, shuffled", list_shuffled},
    {"list, rising, and a structure", list_and_structure},
    {"one wide structure", wide_structure},
    {"wide structures", wide_structures},
    {"tariff tables", tariff_tables},
    {"shared chain of frames", shared_frames},
    {"full trail", full_trail},
};
const size_t kind_count = sizeof kinds / sizeof *kinds;

static uint64_t state;

void restart_chance(void) { state = 88172645463325252u; }

uint32_t chance(uint32_t end)
{
    state ^= state << 13;
    state ^= state >> 7;
    state ^= state << 17;
    return (uint32_t)((state >> 32) * end >> 32);
}

void shuffle(uint32_t *numbers, size_t count)
{
    for (size_t i = count; i > 1; i--) {
        const uint32_t j = chance((uint32_t)i), held = numbers[i - 1];
        numbers[i - 1] = numbers[j];
        numbers[j] = held;
    }
}

void start(areas *to, size_t cells, size_t entries)
{
    const uint32_t fresh[FIXED + 1] = {
        1, 0, NONE, NONE, (uint32_t)entries, (uint32_t)cells, 1, cell(0, CONST)};
    restart_chance();
    to->control_len = FIXED + 1;
    to->stack_len = 0;
    to->heap_len = cells;
    to->trail_len = entries;
    for (size_t i = 0; i < to->control_len; i++)
        to->control[i] = fresh[i];
    for (size_t i = 0; i < cells; i++)
        to->heap[i] = cell((uint32_t)i, CONST);
    for (size_t i = 0; i < entries; i++)
        to->trail[i] = 0;
}

static void push_constants(areas *to, uint32_t count)
{
    for (uint32_t i = 0; i < count; i++)
        to->stack[to->stack_len++] = cell(i, CONST);
}

uint32_t push_frame(areas *to, uint32_t size)
{
    uint32_t *frame = to->stack + to->stack_len;
    frame[CL] = to->control[L];
    frame[CE] = to->control[E];
    to->control[L] = size;
    to->control[E] = (uint32_t)to->stack_len;
    to->stack_len += FRAME_FIXED;
    push_constants(to, size);
    return (uint32_t)to->stack_len - size;
}

uint32_t push_choice_point(areas *to, uint32_t arguments, uint32_t entries,
                           uint32_t cells)
{
    uint32_t *point = to->stack + to->stack_len;
    for (int i = P; i <= B; i++)
        point[i] = to->control[i];
    point[T] = entries;
    point[H] = cells;
    point[N] = arguments;
    to->control[B] = (uint32_t)to->stack_len;
    to->stack_len += FIXED;
    push_constants(to, arguments);
    return (uint32_t)to->stack_len - arguments;
}

enum {
    PLAIN_POINTS = 64,
    FRAMES_A_POINT = 16,
    PLAIN_SIZE = 6,
    PLAIN_ARGUMENTS = 3,
    CELLS_AN_ENTRY = 16
};

void start_plain(areas *to, size_t cells)
{
    start(to, cells, cells / CELLS_AN_ENTRY);
    for (uint32_t i = 0; i < PLAIN_POINTS; i++) {
        for (int j = 0; j < FRAMES_A_POINT; j++)
            push_frame(to, PLAIN_SIZE);
        push_choice_point(to, PLAIN_ARGUMENTS,
                          (uint32_t)(to->trail_len * i / PLAIN_POINTS),
                          (uint32_t)(cells * i / PLAIN_POINTS));
    }
    const uint32_t argument = STACK_BASE + (uint32_t)to->stack_len - 1;
    for (size_t i = 0; i < to->trail_len; i++)
        to->trail[i] = chance(8) ? chance((uint32_t)cells) : argument;
}

static void note_first(uint32_t word, uint8_t *first)
{
    if (tag_of(word) == STRUCT)
        first[value_of(word)] = 1;
}

/* Of the stack's cells only those of the newest frame hold structures, of the
   control area only the one saved argument. */
void leave_functors(areas *to)
{
    const uint32_t *frame = to->stack + to->control[E] + FRAME_FIXED;
    uint8_t *first = calloc(to->heap_len, 1);
    if (!first)
        abort();
    for (size_t i = 0; i < to->heap_len; i++)
        note_first(to->heap[i], first);
    for (uint32_t i = 0; i < to->control[L]; i++)
        note_first(frame[i], first);
    note_first(to->control[FIXED], first);
    for (size_t i = 0; i < to->trail_len; i++)
        if (to->trail[i] < STACK_BASE && first[to->trail[i]])
            to->trail[i]++;
    free(first);
}
