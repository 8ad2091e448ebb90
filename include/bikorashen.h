/*
 * Bikorashen: the garbage collector of a Prolog engine (a Warren machine).
 *
 * Link target/staticlib/libengine.a (x86-64 Linux; `scripts/archive` makes it).
 * It needs nothing but memset, allocates nothing, keeps nothing between
 * calls, and calls nothing back, so calls on different memory may run at the
 * same time in different threads.
 *
 * WHAT IS PROVED. Every function below takes every input: areas of any length
 * with any words, files of any bytes. A bad image or file is refused with a
 * number; nothing crashes, no index leaves its area, every call ends. What each
 * function answers and leaves in memory is stated in crates/engine/specs and
 * proved. What the caller must see to, since no proof can see the caller:
 *
 *   - each pointer points to as many words (or bytes) as the length after it
 *     says, aligned as its type is, and stays valid during the call;
 *   - two areas of one call do not overlap, where the call may write one;
 *   - nobody else writes the memory of a call while it runs.
 *
 * NULL with length 0 is an empty area.
 *
 * WHO OWNS WHAT. The engine owns all memory. A call borrows it and gives it back
 * when it returns. The answers are plain numbers, returned by value.
 *
 * ---------------------------------------------------------------------------
 * WORDS. All areas are arrays of uint32_t.
 *
 * A cell is   value * 16 + tag * 4 + m * 2 + f.   m and f are 0 between calls.
 *
 *   tag  0 VAR     value is the address of the cell it is bound to; a VAR that
 *                  holds its own address is unbound
 *        1 STRUCT  value is the heap index of the functor's cell; the arguments
 *                  follow it. A functor's cell has tag 3 and the value
 *                  name * 256 + arity, with arity 1 to 255
 *        2 LIST    value is the heap index of two cells, head and tail
 *        3 CONST   value is the constant
 *
 * An address below 134217728 (BIK_STACK_BASE) is a heap index; from there on it
 * is 134217728 plus a stack index.
 *
 * THE FOUR AREAS of an image, and what else a call is lent:
 *
 *   heap     0 to 1048576 words. Cells; those at and above H are not looked at
 *   stack    0 to 262144 words. Frames and choice points
 *   trail    0 to 262144 words. Addresses of cells to undo; those at and above T
 *            are not looked at
 *   control  7 to 262 words. The registers, in this order:
 *              0 P   where the program goes on: a number that means nothing here
 *              1 L   the frame at E has L mod 256 cells
 *              2 E   stack index of the current frame, or BIK_NONE
 *              3 B   stack index of the newest choice point, or BIK_NONE
 *              4 T   how many trail entries there are
 *              5 H   how many heap cells there are
 *              6 n   how many saved arguments follow
 *              7 ..  n cells
 *   work     at least heap_len + stack_len words of scratch space. What it
 *            holds at entry does not matter. Under refusal 1 it is not touched;
 *            otherwise its first heap_len + stack_len words are 0 when the call
 *            returns, and the rest is as it was
 *
 * A choice point at stack index b has the layout of the control area:
 *   b + 0 P, + 1 L, + 2 E, + 3 B (the next older one, or BIK_NONE), + 4 T, + 5 H,
 *   + 6 n (at most 255), + 7 .. n saved arguments.
 *
 * A frame at stack index e:
 *   e + 0 CL  the frame at CE has CL mod 256 cells
 *   e + 1 CE  stack index of the frame it continues to, or BIK_NONE
 *   e + 2 ..  its cells; how many is said by whoever points to it (L for E, CL
 *             for CE), so one frame may be seen with several sizes
 *
 * A stack word is a cell if it is a frame's cell or a saved argument, a field if
 * it is another word of a frame or of a choice point, as found by following E,
 * CE and B from the control area; else it has no role.
 *
 * ---------------------------------------------------------------------------
 * REFUSALS. 'collect' also stands for why held, which makes the same checks
 * first. The first that applies, in the order of the table, is given, and
 * only then. A refused call changes no area and no output, and each of its
 * counts is 0.
 *
 *   no  given by            given when
 *    1  collect, step back  heap, stack, trail or control is not of a size as
 *                           above, or work is shorter than heap + stack
 *       thaw, freeze        the same, no work being needed
 *    2  collect, step back, T is above the trail's length, H above the heap's,
 *       freeze              or 7 + n above the control area's
 *    3  collect, step back  a chain is broken                      (has a place):
 *                           a frame does not end at or below the stack's
 *                           length (for E), its choice point (for a choice
 *                           point's E) or the frame that continues to it (for
 *                           CE); a choice point has n above 255 or does not end
 *                           at or below the stack's length or the newer one; or
 *                           its T or H is above the newer one's
 *    4  collect, step back  a stack word would have two different roles, or be
 *                           two different fields                   (has a place)
 *    5  collect, step back  a cell has m or f set                  (has a place)
 *    6  collect, step back  a cell refers wrongly                  (has a place):
 *                           a cell must refer to heap cells below H, to both of
 *                           a LIST, to functor and arguments of a STRUCT, whose
 *                           first cell must be a CONST with arity 1 or more. A
 *                           VAR may also hold the address of a stack word that
 *                           is a cell: in the stack one at or below itself, in
 *                           the control area any, in the heap none
 *    7  collect, step back  a trail entry below T is no heap index below H and
 *                           no word inside the stack, or is a field
 *                                                                  (has a place)
 *   17  collect, step back  a cell or a trail entry refers to a functor's cell:
 *                           the first cell of any STRUCT's target is named by a
 *                           VAR or a trail entry, is one of a LIST's two cells,
 *                           or is an argument of a STRUCT         (has a place)
 *    8  step back           B is BIK_NONE
 *    9  step back           the choice point's 7 + n is above the control area's
 *                           length
 *   18  why held            the index is at or above H
 *   19  why held            the chain is longer than the room
 *   10  thaw, record_at     the file ends early: inside a record (offset of the
 *                           record), or where one should begin (the file's
 *                           length)
 *   11  thaw, record_at     a record of another kind than the one that comes
 *                           next, for record_at of a kind that is not used
 *                           (offset of the record)
 *   12  thaw                a count is above the length of its area  (offset 0)
 *   13  thaw                bytes after the end       (offset of the first one)
 *   14  thaw                the counts are not those of the file's own control
 *                           words, or fewer than 7 control words    (offset 0)
 *   15  freeze              the output is shorter than the file
 *
 * For 3 the place is that of the first frame or choice point at fault: the
 * control area's frames come first, then from the newest each choice point and
 * after it its frames. It is the stack index where the frame or choice point
 * begins, as E, CE or B holds it, so it may lie outside the stack (up to
 * 4294967294). For 4 it is the lowest stack word in conflict.
 *
 * For 5, 6 and 17 heap, stack and control are tried in this order, for 17 then
 * the trail, and the lowest index is given; all cells of the heap below H count,
 * also those that nothing reaches. A control cell's index is its index in the
 * control area. For 17 the place is that of the cell that refers.
 */
#ifndef BIKORASHEN_H
#define BIKORASHEN_H

#include <stddef.h>
#include <stdint.h>

#ifdef __cplusplus
extern "C" {
#endif

/* E, CE or B that names nothing. */
#define BIK_NONE UINT32_C(4294967295)

/* The first address that names a stack word. */
#define BIK_STACK_BASE UINT32_C(134217728)

/* The areas by number, as the answers give them. */
enum {
    BIK_NOWHERE = 0,
    BIK_HEAP = 1,
    BIK_STACK = 2,
    BIK_CONTROL = 3,
    BIK_TRAIL = 4
};

/* ------------------------------------------------------------------------- */

/* What a collection answers. */
typedef struct {
    uint32_t refusal;         /* 0: collected; else 1 to 7 or 17 */
    uint32_t area;            /* of the place, for 3 to 7 and 17; else 0 */
    uint64_t index;           /* of the place, in that area; else 0 */
    uint64_t cells_kept;      /* heap cells below the old H that stay: the new H */
    uint64_t cells_dropped;   /* heap cells below the old H that go */
    uint64_t entries_kept;    /* trail entries that stay: the new T */
    uint64_t entries_dropped; /* trail entries that go */
} bik_collected;

/*
 * Collects. The heap cells that stay are exactly those that a saved argument of
 * the control area, a frame's cell or a choice point's saved argument reaches.
 * They close up to the heap's start in their order; every reference, every H and
 * every trail entry of a heap cell follows them. A trail entry stays if it names
 * a heap cell that stays or a stack word that is a cell; the entries close up in
 * order, and every T follows. Heap words from the new H to the old one and trail
 * words from the new T to the old one become 0. No other word changes.
 */
bik_collected bik_collect(uint32_t *control, size_t control_len,
                          uint32_t *stack, size_t stack_len,
                          uint32_t *heap, size_t heap_len,
                          uint32_t *trail, size_t trail_len,
                          uint32_t *work, size_t work_len);

/* What a step back answers. */
typedef struct {
    uint32_t refusal; /* 0: stepped back; else 1 to 9 or 17 */
    uint32_t area;    /* of the place, for 3 to 7 and 17; else 0 */
    uint64_t index;   /* of the place, in that area; else 0 */
    uint64_t undone;  /* trail entries undone, equal ones counted each */
} bik_stepped;

/*
 * Steps back to the newest choice point. The cell of each trail entry from its T
 * up to the control area's T becomes unbound; then its 7 + n words are copied to
 * the front of the control area, B included, so that it is left behind. No other
 * word changes; the trail does not.
 */
bik_stepped bik_step_back(uint32_t *control, size_t control_len,
                          uint32_t *stack, size_t stack_len,
                          uint32_t *heap, size_t heap_len,
                          uint32_t *trail, size_t trail_len,
                          uint32_t *work, size_t work_len);

/* Why a heap cell is held. */
typedef struct {
    uint32_t refusal;    /* 0: held or dead; else 1 to 7, 17, 18 or 19 */
    uint32_t area;       /* of the place, for 3 to 7 and 17; else 0 */
    uint64_t index;      /* of the place, in that area; else 0 */
    uint32_t held;       /* 1: held; 0: dead, or refused */
    uint32_t root_area;  /* held: where the root stands, BIK_STACK or BIK_CONTROL */
    uint64_t root_index; /* and its index in that area */
    uint64_t length;     /* held: how many heap cells the chain has */
} bik_held;

/*
 * Tells why the heap cell is held: by a root (a saved argument of the control
 * area, a frame's cell or a choice point's saved argument) and a chain of heap
 * cells, of which the root refers to the first, each to the next, and the last
 * is the asked one. It is the shortest such chain, and of those as short the one
 * with the lowest places from the root on, control before stack. Exactly the
 * cells that a collection would drop are dead.
 *
 * The chain's heap indexes are written to the front of the room; its other words
 * stay, and all of them where the cell is dead or the call refused. H words are
 * always enough. No area changes; the work words are as after any call.
 */
bik_held bik_why_held(uint32_t *control, size_t control_len,
                      uint32_t *stack, size_t stack_len,
                      uint32_t *heap, size_t heap_len,
                      uint32_t *trail, size_t trail_len,
                      uint32_t *work, size_t work_len,
                      uint32_t cell, uint32_t *room, size_t room_len);

/* The part of an area that an address names. */
typedef struct {
    uint32_t area;   /* BIK_HEAP or BIK_STACK */
    uint64_t index;  /* where in that area the part begins */
    uint64_t length; /* how many words it has, up to the area's end */
} bik_part;

/*
 * Looks an address up, in areas of any length; it goes by their lengths, not by
 * H, and refuses nothing. An address in neither area gives the empty part at the
 * heap's start: area BIK_HEAP, index 0, length 0.
 */
bik_part bik_look_up(const uint32_t *heap, size_t heap_len,
                     const uint32_t *stack, size_t stack_len,
                     uint32_t address);

/* ------------------------------------------------------------------------- */

/* What the reader of a freeze file answers. */
typedef struct {
    uint32_t refusal; /* 0: read; else 1 or 10 to 14 of the table */
    uint64_t offset;  /* of a refusal, in bytes, as the table says; else 0 */
    uint64_t control; /* words read into the control area: 7 + n */
    uint64_t stack;   /* words read into the stack */
    uint64_t heap;    /* words read into the heap: H */
    uint64_t trail;   /* words read into the trail: T */
} bik_thawed;

/*
 * Reads a freeze file into the fronts of four areas and leaves the rest of them
 * as it is. docs/FREEZE.md has the file byte by byte. The file's words need not
 * be a sound image: bik_collect says whether they are. Whoever collects
 * afterwards gives as stack_len the count `stack`, not the area's full length,
 * unless the stack is to have the words behind it too.
 */
bik_thawed bik_thaw(const uint8_t *file, size_t file_len,
                    uint32_t *control, size_t control_len,
                    uint32_t *stack, size_t stack_len,
                    uint32_t *heap, size_t heap_len,
                    uint32_t *trail, size_t trail_len);

/* What the writer of a freeze file answers. */
typedef struct {
    uint32_t refusal; /* 0: written; else 1, 2 or 15 of the table */
    uint64_t bytes;   /* the file's length: 18 + 5 for each word written */
} bik_frozen;

/*
 * Writes the control words below 7 + n, the whole stack, the heap below H and the
 * trail below T as a file into the front of `output`, and leaves the rest of it
 * as it is. 18 + 5 * (7 + n + stack_len + H + T) bytes are enough. The words need
 * not be a sound image.
 */
bik_frozen bik_freeze(const uint32_t *control, size_t control_len,
                      const uint32_t *stack, size_t stack_len,
                      const uint32_t *heap, size_t heap_len,
                      const uint32_t *trail, size_t trail_len,
                      uint8_t *output, size_t output_len);

/* One record of a freeze file. */
typedef struct {
    uint32_t refusal; /* 0: a whole record; else 10 or 11 of the table */
    uint64_t offset;  /* of a refusal; else 0 */
    uint32_t kind;    /* 1 counts; 2, 3, 4, 5 a control, stack, heap, trail word;
                         6 end */
    uint64_t body;    /* offset where the body begins */
    uint64_t next;    /* offset past the body, where the next record begins */
} bik_record;

/* The record at an offset of a file, whatever comes before it. */
bik_record bik_record_at(const uint8_t *file, size_t file_len,
                         uint64_t offset);

#ifdef __cplusplus
}
#endif

#endif
