/*
 * Night A, the small image of document 01, through the library: written as a
 * freeze file and read back, looked at, asked why some cells are held, collected,
 * stepped back, collected again; then what refusals look like, and the smallest
 * image. `make check` compares what it prints with night_a.expected.
 */
#include <inttypes.h>
#include <stdio.h>

#include "bikorashen.h"

enum { CONTROL = 16, STACK = 12, HEAP = 16, TRAIL = 4, WORK = HEAP + STACK };
enum { T = 4, H = 5, N = 6, FIXED = 7, KINDS = 7 };

/* An engine's memory. Here the stack has exactly the words in use. */
typedef struct {
    uint32_t control[CONTROL], stack[STACK], heap[HEAP], trail[TRAIL];
    uint32_t work[WORK];
} machine;

static const machine night_a = {
    .control = {1, 258, 0, 4, 3, 9, 1, 2147483696},
    .stack = {0, BIK_NONE, 20, 108, 2, 258, 0, BIK_NONE, 0, 5, 1, 48},
    .heap = {124, 20524, 96, 156, 112, 28, 120, 76, 12},
    .trail = {2, 4, BIK_STACK_BASE + 3},
};

static const char *const areas[] = {"", "heap", "stack", "control", "trail"};

static void print_words(const char *name, const uint32_t *words, size_t count)
{
    printf("%s", name);
    for (size_t i = 0; i < count; i++)
        printf(" %" PRIu32, words[i]);
    printf("\n");
}

static void print_machine(const machine *m)
{
    print_words("control", m->control, FIXED + m->control[N]);
    print_words("stack", m->stack, STACK);
    print_words("heap", m->heap, m->control[H]);
    print_words("trail", m->trail, m->control[T]);
}

static void print_refusal(uint32_t refusal, uint32_t area, uint64_t index)
{
    printf("refused %" PRIu32, refusal);
    if (area != BIK_NOWHERE)
        printf(" %s %" PRIu64, areas[area], index);
    printf("\n");
}

static void collect(machine *m)
{
    const bik_collected r = bik_collect(m->control, CONTROL, m->stack, STACK,
                                        m->heap, HEAP, m->trail, TRAIL,
                                        m->work, WORK);
    if (r.refusal != 0) {
        print_refusal(r.refusal, r.area, r.index);
        return;
    }
    printf("kept %" PRIu64 " %" PRIu64 " trail %" PRIu64 " %" PRIu64 "\n",
           r.cells_kept, r.cells_dropped, r.entries_kept, r.entries_dropped);
    print_machine(m);
}

static void step_back(machine *m)
{
    const bik_stepped r = bik_step_back(m->control, CONTROL, m->stack, STACK,
                                        m->heap, HEAP, m->trail, TRAIL,
                                        m->work, WORK);
    if (r.refusal != 0)
        print_refusal(r.refusal, r.area, r.index);
    else
        printf("undone %" PRIu64 "\n", r.undone);
}

static void look_up(const machine *m, uint32_t address)
{
    const bik_part r = bik_look_up(m->heap, HEAP, m->stack, STACK, address);
    printf("address %" PRIu32 ": %s %" PRIu64 ", %" PRIu64 " words\n", address,
           areas[r.area], r.index, r.length);
}

/* Who holds a heap cell, and by which chain of at most room_len cells. */
static void why_held(machine *m, uint32_t cell, size_t room_len)
{
    uint32_t room[HEAP];
    const bik_held r = bik_why_held(m->control, CONTROL, m->stack, STACK,
                                    m->heap, HEAP, m->trail, TRAIL, m->work,
                                    WORK, cell, room, room_len);
    printf("cell %" PRIu32 ": ", cell);
    if (r.refusal != 0) {
        print_refusal(r.refusal, r.area, r.index);
    } else if (!r.held) {
        printf("dead\n");
    } else {
        printf("held by %s %" PRIu64, areas[r.root_area], r.root_index);
        print_words(" through", room, r.length);
    }
}

/* How many records of each kind a file has. */
static void count_records(const uint8_t *file, size_t length)
{
    unsigned counts[KINDS] = {0};
    uint64_t offset = 0;
    bik_record r = bik_record_at(file, length, offset);
    while (r.refusal == 0) {
        counts[r.kind]++;
        offset = r.next;
        r = bik_record_at(file, length, offset);
    }
    printf("records");
    for (int kind = 1; kind < KINDS; kind++)
        printf(" %u", counts[kind]);
    printf(", then %" PRIu32 " at %" PRIu64 "\n", r.refusal, r.offset);
}

static void thaw(machine *m, const uint8_t *file, size_t length)
{
    const bik_thawed r = bik_thaw(file, length, m->control, CONTROL, m->stack,
                                  STACK, m->heap, HEAP, m->trail, TRAIL);
    if (r.refusal != 0)
        printf("file %" PRIu32 " %" PRIu64 "\n", r.refusal, r.offset);
    else
        printf("thawed %" PRIu64 " %" PRIu64 " %" PRIu64 " %" PRIu64 "\n",
               r.control, r.stack, r.heap, r.trail);
}

/* The smallest image: seven control words, and nothing in the other areas. */
static void collect_nothing(void)
{
    uint32_t control[FIXED] = {1, 0, BIK_NONE, BIK_NONE};
    const bik_collected r =
        bik_collect(control, FIXED, NULL, 0, NULL, 0, NULL, 0, NULL, 0);
    printf("nothing: refusal %" PRIu32 ", kept %" PRIu64 "\n", r.refusal,
           r.cells_kept);
}

int main(void)
{
    uint8_t file[256];
    const bik_frozen frozen =
        bik_freeze(night_a.control, CONTROL, night_a.stack, STACK,
                   night_a.heap, HEAP, night_a.trail, TRAIL, file, sizeof file);
    printf("frozen %" PRIu32 ", %" PRIu64 " bytes\n", frozen.refusal,
           frozen.bytes);
    count_records(file, frozen.bytes);

    machine m = {0};
    thaw(&m, file, frozen.bytes);
    print_machine(&m);
    look_up(&m, 3);
    look_up(&m, BIK_STACK_BASE + 11);
    look_up(&m, BIK_STACK_BASE + STACK);

    why_held(&m, 3, HEAP);
    why_held(&m, 5, HEAP);
    why_held(&m, 8, HEAP);
    why_held(&m, 8, 1);    /* the chain is longer than the room */
    why_held(&m, 9, HEAP); /* there is no such cell */

    collect(&m);   /* six cells stay */
    collect(&m);   /* nothing more to drop */
    step_back(&m); /* the owner before */
    collect(&m);
    step_back(&m); /* there is no choice point left */

    m = night_a;
    step_back(&m); /* the same step with nothing collected */
    collect(&m);

    m = night_a;
    m.trail[0] = BIK_STACK_BASE + 4; /* a choice point's P */
    collect(&m);
    thaw(&m, file, frozen.bytes - 3); /* a file that was cut */
    thaw(&m, NULL, 0);                /* and one that is empty */
    collect_nothing();
    return 0;
}
