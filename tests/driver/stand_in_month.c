/* A plain stand-in for the program month, over the calls of a library. With
   bench/peer.c and stand_in.c it makes a whole program that is proved nowhere:
   it stands here so that the comparison of months can itself be tested, with
   and without faults. */
#include <inttypes.h>
#include <stdio.h>
#include <unistd.h>

#include "../../bench/machine.h"
#include "../../include/bikorashen.h"

enum { STACK_ROOM = 1024, HEAP_ROOM = 2048, TRAIL_ROOM = 512 };
enum { WORK_ROOM = HEAP_ROOM + STACK_ROOM, AREAS = 4, TAGS = 4 };
enum { COUNTS_RECORD = 17, WORD_RECORD = 5, END_RECORD = 1, LONGEST = 19248 };
enum { FILES_MOST = 65535, NUMBERS = 32, AFTER = 13 };

typedef struct {
    uint64_t kept[TAGS], dropped[TAGS];
    uint64_t entries_kept, entries_dropped, points, deepest;
} figures;

static uint32_t control[CONTROL_MOST], stack[STACK_ROOM], heap[HEAP_ROOM],
    trail[TRAIL_ROOM], work[WORK_ROOM];
static uint8_t file[LONGEST];
static uint64_t refused[NUMBERS], accepted;
static figures total;

/* As many bytes as there are, up to count. */
static size_t take(uint8_t *to, size_t count)
{
    size_t all = 0;
    ssize_t got;
    while ((got = read(STDIN_FILENO, to + all, count - all)) > 0)
        all += (size_t)got;
    return all;
}

/* The bytes of a file after a whole counts record; none if it has no room. */
static size_t rest_of_file(void)
{
    static const size_t room[AREAS] = {CONTROL_MOST, STACK_ROOM, HEAP_ROOM,
                                       TRAIL_ROOM};
    size_t words = 0;
    for (int area = 0; area < AREAS; area++) {
        const uint8_t *at = file + 1 + 4 * area;
        const uint32_t count = at[0] | (uint32_t)at[1] << 8 |
                               (uint32_t)at[2] << 16 | (uint32_t)at[3] << 24;
        if (count > room[area])
            return 0;
        words += count;
    }
    return WORD_RECORD * words + END_RECORD;
}

/* One file's bytes, from its first on, which may be cut. */
static size_t take_file(void)
{
    size_t length = take(file, COUNTS_RECORD);
    if (length == COUNTS_RECORD)
        length += take(file + COUNTS_RECORD, rest_of_file());
    return length;
}

static void count_tags(uint64_t *by_tag)
{
    for (uint32_t i = 0; i < control[H]; i++)
        by_tag[tag_of(heap[i])]++;
}

static uint64_t depth(const uint32_t *from)
{
    uint64_t frames = 0;
    for (uint32_t e = from[E]; e != NONE; e = stack[e + CE])
        frames++;
    return frames;
}

/* What the collector leaves alone: the chains. */
static void count_chains(figures *to)
{
    to->deepest = depth(control);
    for (uint32_t b = control[B]; b != NONE; b = stack[b + B]) {
        const uint64_t own = depth(stack + b);
        to->points++;
        if (own > to->deepest)
            to->deepest = own;
    }
}

static void add(const figures *one)
{
    for (int tag = 0; tag < TAGS; tag++) {
        total.kept[tag] += one->kept[tag];
        total.dropped[tag] += one->dropped[tag];
    }
    total.entries_kept += one->entries_kept;
    total.entries_dropped += one->entries_dropped;
    total.points += one->points;
    if (one->deepest > total.deepest)
        total.deepest = one->deepest;
}

static void print_tags(const char *word, const uint64_t *by_tag)
{
    printf(" %s", word);
    for (int tag = 0; tag < TAGS; tag++)
        printf(" %" PRIu64, by_tag[tag]);
}

static void print(const char *word, uint64_t number, const figures *of)
{
    printf("%s %" PRIu64, word, number);
    print_tags("kept", of->kept);
    print_tags("dropped", of->dropped);
    printf(" trail %" PRIu64 " %" PRIu64 " points %" PRIu64 " deepest %" PRIu64
           "\n", of->entries_kept, of->entries_dropped, of->points, of->deepest);
}

static void print_refused(uint64_t number, const bik_collected *answer)
{
    static const char *const names[] = {"", "heap", "stack", "control", "trail"};
    printf("freeze %" PRIu64 " refused %" PRIu32, number, answer->refusal);
    if (answer->area)
        printf(" %s %" PRIu64, names[answer->area], (uint64_t)answer->index);
    printf("\n");
}

/* Collects the image just read. Kept cells keep their tags, so that those of
   the dropped ones are the tags read less those left. */
static void judge(uint64_t number, size_t stack_len)
{
    figures one = {.points = 0};
    uint64_t read_tags[TAGS] = {0};
    count_tags(read_tags);
    const bik_collected answer =
        bik_collect(control, CONTROL_MOST, stack, stack_len, heap, HEAP_ROOM,
                    trail, TRAIL_ROOM, work, WORK_ROOM);
    if (answer.refusal) {
        refused[answer.refusal]++;
        print_refused(number, &answer);
        return;
    }
    count_tags(one.kept);
    for (int tag = 0; tag < TAGS; tag++)
        one.dropped[tag] = read_tags[tag] - one.kept[tag];
    one.entries_kept = answer.entries_kept;
    one.entries_dropped = answer.entries_dropped;
    count_chains(&one);
    print("freeze", number, &one);
    add(&one);
    accepted++;
}

static int finish(uint32_t number, uint64_t offset)
{
    print("all", accepted, &total);
    for (int i = 0; i < NUMBERS; i++)
        if (refused[i])
            printf("refused %d %" PRIu64 "\n", i, refused[i]);
    if (number)
        printf("file %" PRIu32 " %" PRIu64 "\n", number, offset);
    else
        printf("end\n");
    return 0;
}

int main(void)
{
    uint64_t start = 0;
    for (uint64_t number = 1;; number++) {
        const size_t length = take_file();
        if (length == 0)
            return finish(0, 0);
        if (number > FILES_MOST)
            return finish(AFTER, start);
        const bik_thawed read =
            bik_thaw(file, length, control, CONTROL_MOST, stack, STACK_ROOM,
                     heap, HEAP_ROOM, trail, TRAIL_ROOM);
        if (read.refusal)
            return finish(read.refusal, start + read.offset);
        judge(number, read.stack);
        start += length;
    }
}
