/* The image a call is given, and how the lent work words are used. */
#ifndef PEER_IMAGE_H
#define PEER_IMAGE_H

#include "machine.h"
#include "peer.h"

/* A work word of a heap cell, work[index].
   While checking: how many first cells of structures stand below.
   While marking: KEPT and the next pending cell (LINK, index + 1, 0 for none).
   After it: KEPT and d(index). */
#define KEPT 2147483648u
#define LINK_MASK 2097151u

/* A work word of a stack word, work[heap_len + index]: its roles.
   A cell has the bit of a kept heap cell, so that a trail entry asks one
   question whatever it names. Each field has a bit of its own. A CL word also
   notes the largest size its frame was seen with, a P word the newer choice
   point (index + 1, 0 for none). */
#define IS_CELL KEPT
enum { FIELD_CL = 1, FIELD_CE = 2, FIELD_P = 4, NOTE_SHIFT = 9 };
#define NOTE_MASK 4194303u

typedef struct {
    uint32_t *control, *stack, *heap, *trail, *work;
    size_t control_len, stack_len, heap_len, trail_len, work_len;
    uint32_t *roles;   /* the work words of the stack */
    uint32_t oldest;   /* the last choice point of the chain, or NONE */
    uint32_t conflict; /* not 0: some stack word has two roles */
    uint32_t functors; /* how many first cells of structures there are */
} image;

typedef struct {
    uint32_t refusal, area;
    uint64_t index;
} verdict;

/* The work word of what an address names. */
static inline uint32_t *work_of(const image *m, uint32_t address)
{
    const uint32_t heap_len = (uint32_t)m->heap_len;
    return m->work +
           (address < STACK_BASE ? address : address - STACK_BASE + heap_len);
}

#endif
