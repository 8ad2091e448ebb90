/* The calls of the library, each behind the same form. A library that has only
   some of them is served with WITHOUT_COLLECT and the like defined: then the
   call is not named here, and the driver links. */
#include "serve.h"

#include "../../include/bikorashen.h"

#define AREA(which) given->words[which], given->length[which]
#define FILE_OR_OUTPUT given->bytes, given->length[BYTES]

#ifdef WITHOUT_COLLECT
#define collect NULL
#else
static void collect(const lent *given, uint64_t *fields)
{
    const bik_collected answer = bik_collect(
        AREA(CONTROL), AREA(STACK), AREA(HEAP), AREA(TRAIL), AREA(WORK));
    fields[0] = answer.refusal;
    fields[1] = answer.area;
    fields[2] = answer.index;
    fields[3] = answer.cells_kept;
    fields[4] = answer.cells_dropped;
    fields[5] = answer.entries_kept;
    fields[6] = answer.entries_dropped;
}
#endif

#ifdef WITHOUT_STEP_BACK
#define step_back NULL
#else
static void step_back(const lent *given, uint64_t *fields)
{
    const bik_stepped answer = bik_step_back(
        AREA(CONTROL), AREA(STACK), AREA(HEAP), AREA(TRAIL), AREA(WORK));
    fields[0] = answer.refusal;
    fields[1] = answer.area;
    fields[2] = answer.index;
    fields[3] = answer.undone;
}
#endif

#ifdef WITHOUT_LOOK_UP
#define look_up NULL
#else
static void look_up(const lent *given, uint64_t *fields)
{
    const bik_part answer =
        bik_look_up(AREA(HEAP), AREA(STACK), (uint32_t)given->number);
    fields[0] = answer.area;
    fields[1] = answer.index;
    fields[2] = answer.length;
}
#endif

#ifdef WITHOUT_THAW
#define thaw NULL
#else
static void thaw(const lent *given, uint64_t *fields)
{
    const bik_thawed answer = bik_thaw(FILE_OR_OUTPUT, AREA(CONTROL),
                                       AREA(STACK), AREA(HEAP), AREA(TRAIL));
    fields[0] = answer.refusal;
    fields[1] = answer.offset;
    fields[2] = answer.control;
    fields[3] = answer.stack;
    fields[4] = answer.heap;
    fields[5] = answer.trail;
}
#endif

#ifdef WITHOUT_FREEZE
#define freeze NULL
#else
static void freeze(const lent *given, uint64_t *fields)
{
    const bik_frozen answer = bik_freeze(AREA(CONTROL), AREA(STACK), AREA(HEAP),
                                         AREA(TRAIL), FILE_OR_OUTPUT);
    fields[0] = answer.refusal;
    fields[1] = answer.bytes;
}
#endif

#ifdef WITHOUT_RECORD
#define record NULL
#else
static void record(const lent *given, uint64_t *fields)
{
    const bik_record answer = bik_record_at(FILE_OR_OUTPUT, given->number);
    fields[0] = answer.refusal;
    fields[1] = answer.offset;
    fields[2] = answer.kind;
    fields[3] = answer.body;
    fields[4] = answer.next;
}
#endif

#ifdef WITHOUT_WHY_HELD
#define why_held NULL
#else
static void why_held(const lent *given, uint64_t *fields)
{
    const bik_held answer =
        bik_why_held(AREA(CONTROL), AREA(STACK), AREA(HEAP), AREA(TRAIL),
                     AREA(WORK), (uint32_t)given->number, AREA(ROOM));
    fields[0] = answer.refusal;
    fields[1] = answer.area;
    fields[2] = answer.index;
    fields[3] = answer.held;
    fields[4] = answer.root_area;
    fields[5] = answer.root_index;
    fields[6] = answer.length;
}
#endif

/* By the numbers of the protocol, which begin at 1. */
static service *const services[] = {NULL,   collect, step_back, look_up, thaw,
                                    freeze, record,  why_held};

enum { CALLS = sizeof services / sizeof *services };

service *service_of(uint32_t call)
{
    return call < CALLS ? services[call] : NULL;
}

uint64_t calls_there(void)
{
    uint64_t there = 0;
    for (uint32_t call = 0; call < CALLS; call++)
        there |= (uint64_t)(services[call] != NULL) << call;
    return there;
}
