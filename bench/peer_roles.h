/* Refusals 3 and 4: walks the chains once and leaves the role of every stack
   word in its work word. Which word is lowest in conflict is looked for only
   when one is. */
#ifndef PEER_ROLES_H
#define PEER_ROLES_H

#include "peer_image.h"

static inline void take_cells(image *m, uint32_t *role, uint32_t count)
{
    uint32_t other = 0;
    for (uint32_t i = 0; i < count; i++) {
        other |= role[i] & ~IS_CELL;
        role[i] |= IS_CELL;
    }
    m->conflict |= other;
}

/* A frame or choice point is met here for the first time, so a word that has
   a role already has it from something else. */
static inline void take_fields(image *m, uint32_t *role, uint32_t first,
                               uint32_t count)
{
    for (uint32_t i = 0; i < count; i++) {
        m->conflict |= role[i];
        role[i] |= first << i;
    }
}

/* Takes the frame at e as seen with this size; answers whether it was seen
   before. Of a frame seen before only the cells past the largest size are new,
   so all views together cost each word once. After a conflict no more cells
   are taken, for 4 is certain unless the walk finds 3; sizes are still noted. */
static inline int take_view(image *m, uint32_t e, uint32_t size)
{
    uint32_t *role = m->roles + e;
    const int seen = role[CL] & FIELD_CL;
    const uint32_t known = seen ? role[CL] >> NOTE_SHIFT & NOTE_MASK : 0;
    if (!seen)
        take_fields(m, role, FIELD_CL, FRAME_FIXED);
    if (size > known) {
        role[CL] &= ~(NOTE_MASK << NOTE_SHIFT);
        role[CL] |= size << NOTE_SHIFT;
        if (!m->conflict)
            take_cells(m, role + FRAME_FIXED + known, size - known);
    }
    return seen;
}

/* Answers the frame at which the chain from e is broken, or NONE. CL and CE
   stand in the frame, so the chain behind a frame seen before was walked with
   the same sizes. */
static uint32_t walk_frames(image *m, uint32_t e, uint32_t size_word,
                            uint64_t end)
{
    while (e != NONE) {
        const uint32_t size = size_word % SIZE_END;
        if ((uint64_t)e + FRAME_FIXED + size > end)
            return e;
        if (take_view(m, e, size))
            return NONE;
        size_word = m->stack[e + CL];
        end = e;
        e = m->stack[e + CE];
    }
    return NONE;
}

/* Answers whether the choice point at b ends at or below end and its
   boundaries are at most the newer ones. */
static inline int stands(const image *m, uint32_t b, uint64_t end,
                         const uint32_t *newer)
{
    if ((uint64_t)b + FIXED > end)
        return 0;
    const uint32_t *point = m->stack + b;
    return point[N] <= MOST_ARGUMENTS &&
           (uint64_t)b + FIXED + point[N] <= end && point[T] <= newer[T] &&
           point[H] <= newer[H];
}

/* Answers the first frame or choice point at fault, or NONE: the control's
   frames, then from the newest each choice point and after it its frames. Leaves
   the way back from the oldest choice point to the newest in the P words' notes.
   */
static uint32_t walk_chains(image *m)
{
    uint64_t end = m->stack_len;
    const uint32_t *newer = m->control;
    uint32_t note = 0;
    uint32_t broken = walk_frames(m, newer[E], newer[L], end);
    for (uint32_t b = newer[B]; broken == NONE && b != NONE; b = newer[B]) {
        if (!stands(m, b, end, newer))
            return b;
        newer = m->stack + b;
        take_fields(m, m->roles + b, FIELD_P, FIXED);
        if (!m->conflict)
            take_cells(m, m->roles + b + FIXED, newer[N]);
        m->roles[b] |= note << NOTE_SHIFT;
        m->oldest = b;
        note = b + 1;
        end = b;
        broken = walk_frames(m, newer[E], newer[L], end);
    }
    return broken;
}

/* The end of the frame or choice point whose first word, with this role, is at
   i. */
static inline uint64_t end_of(const image *m, uint64_t i, uint32_t role)
{
    if (role & FIELD_P)
        return i + FIXED + m->stack[i + N];
    return i + FRAME_FIXED + (role >> NOTE_SHIFT & NOTE_MASK);
}

/* The lowest word that two frames or choice points have is the first word of
   the higher one: below it the lower one is alone. So only first words are
   asked. Some word is in conflict, and the end of the stack is no answer. */
static uint64_t lowest_conflict(const image *m)
{
    uint64_t end = 0;
    for (uint64_t i = 0; i < m->stack_len; i++) {
        const uint32_t role = m->roles[i], first = role & (FIELD_CL | FIELD_P);
        if (first && (i < end || first == (FIELD_CL | FIELD_P)))
            return i;
        if (first)
            end = end_of(m, i, role);
    }
    return m->stack_len;
}

static verdict check_chains(image *m)
{
    const uint32_t broken = walk_chains(m);
    if (broken != NONE)
        return (verdict){3, PEER_STACK, broken};
    if (m->conflict)
        return (verdict){4, PEER_STACK, lowest_conflict(m)};
    return (verdict){0, PEER_NOWHERE, 0};
}

#endif
