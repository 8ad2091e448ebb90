/* A plain stand-in for the program why, over the calls of a library. With
   bench/peer.c, stand_in.c and stand_in_held.c it makes a whole program that is
   proved nowhere: it stands here so that its comparison can itself be tested,
   with and without faults. */
#include <inttypes.h>
#include <stdio.h>
#include <string.h>
#include <unistd.h>

#include "../../bench/machine.h"
#include "../../include/bikorashen.h"

enum { STACK_ROOM = 1024, HEAP_ROOM = 2048, TRAIL_ROOM = 512 };
enum { WORK_ROOM = HEAP_ROOM + STACK_ROOM, LONGEST = 19248 };
#define INDEX_END 4294967296u

static uint32_t control[CONTROL_MOST], stack[STACK_ROOM], heap[HEAP_ROOM],
    trail[TRAIL_ROOM], work[WORK_ROOM], room[HEAP_ROOM];
static uint8_t file[LONGEST + 1]; /* a byte after the end is seen */

/* The index that the text states, or INDEX_END. */
static uint64_t index_of(const char *text)
{
    uint64_t index = 0;
    if (!*text || text[strspn(text, "0123456789")])
        return INDEX_END;
    for (; *text && index < INDEX_END; text++)
        index = 10 * index + (uint64_t)(*text - '0');
    return index < INDEX_END ? index : INDEX_END;
}

static size_t take_file(void)
{
    size_t all = 0;
    ssize_t got;
    while ((got = read(STDIN_FILENO, file + all, sizeof file - all)) > 0)
        all += (size_t)got;
    return all;
}

/* Tells whether the stack word at index is a cell of a frame from e on. */
static int print_frame(uint32_t e, uint32_t size_word, uint64_t index)
{
    for (; e != NONE; size_word = stack[e + CL], e = stack[e + CE]) {
        const uint64_t first = (uint64_t)e + FRAME_FIXED;
        if (index < first || index >= first + size_word % SIZE_END)
            continue;
        printf("held by cell %" PRIu64 " of the frame at %" PRIu32 ": stack ",
               index - first + 1, e);
        return 1;
    }
    return 0;
}

static int print_point(uint32_t b, uint64_t index)
{
    const uint64_t first = (uint64_t)b + FIXED;
    if (index < first || index >= first + stack[b + N])
        return 0;
    printf("held by saved argument %" PRIu64 " of the choice point at %" PRIu32
           ": stack ", index - first + 1, b);
    return 1;
}

static void print_root(const bik_held *answer)
{
    const uint64_t index = answer->root_index;
    if (answer->root_area == BIK_CONTROL)
        printf("held by argument %" PRIu64 " of the control area: control ",
               index - FIXED + 1);
    else if (!print_frame(control[E], control[L], index))
        for (uint32_t b = control[B]; b != NONE; b = stack[b + B])
            if (print_point(b, index) ||
                print_frame(stack[b + E], stack[b + L], index))
                break;
    printf("%" PRIu64 "\n", index);
}

static void print_chain(const bik_held *answer)
{
    static const char *const tags[] = {"VAR", "STRUCT", "LIST", "CONST"};
    print_root(answer);
    for (uint64_t i = 0; i < answer->length; i++) {
        const uint32_t word = heap[room[i]];
        printf("%" PRIu32 " %s %" PRIu32 "\n", room[i], tags[tag_of(word)],
               value_of(word));
    }
}

static void print_refused(const bik_held *answer)
{
    static const char *const names[] = {"", "heap", "stack", "control", "trail"};
    printf("refused %" PRIu32, answer->refusal);
    if (answer->area)
        printf(" %s %" PRIu64, names[answer->area], answer->index);
    printf("\n");
}

static void answer_for(uint32_t cell)
{
    const size_t length = take_file();
    const bik_thawed got =
        bik_thaw(file, length, control, CONTROL_MOST, stack, STACK_ROOM, heap,
                 HEAP_ROOM, trail, TRAIL_ROOM);
    if (got.refusal) {
        printf("file %" PRIu32 " %" PRIu64 "\n", got.refusal, got.offset);
        return;
    }
    const bik_held answer =
        bik_why_held(control, CONTROL_MOST, stack, got.stack, heap, HEAP_ROOM,
                     trail, TRAIL_ROOM, work, WORK_ROOM, cell, room, HEAP_ROOM);
    if (answer.refusal)
        print_refused(&answer);
    else if (answer.held)
        print_chain(&answer);
    else
        printf("dead\n");
}

int main(int count, char **arguments)
{
    const uint64_t cell = count == 2 ? index_of(arguments[1]) : INDEX_END;
    if (cell == INDEX_END)
        printf("give one heap index, in decimal, below 4294967296\n");
    else
        answer_for((uint32_t)cell);
    return 0;
}
