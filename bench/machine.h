/* The words of the machine and the layout of its areas, for the peer and for
   the makers of images. Every number of the layout has its one name here. */
#ifndef MACHINE_H
#define MACHINE_H

#include <stddef.h>
#include <stdint.h>

/* word = value * 16 + tag * 4 + m * 2 + f */
enum { VAR = 0, STRUCT = 1, LIST = 2, CONST = 3 };
enum { VALUE_SHIFT = 4, TAG_SHIFT = 2, TAG_MASK = 3, LOW_PART = 15 };
enum { BIT_M = 2, BIT_F = 1, BITS = BIT_M | BIT_F };

#define VALUE_END 268435456u  /* every value is below it */
#define STACK_BASE 134217728u /* the first address of the stack */
#define NONE 4294967295u      /* in E, CE and B */

/* Control area and choice point: seven words, then n saved arguments. */
enum { P, L, E, B, T, H, N, FIXED };

/* A frame: two words, then its cells. */
enum { CL, CE, FRAME_FIXED };

/* A functor's value is name * 256 + arity; a size is a word mod 256. */
enum { ARITY_END = 256, SIZE_END = 256 };
enum { MOST_ARITY = 255, MOST_SIZE = 255, MOST_ARGUMENTS = 255 };

/* The most words an area may have. */
enum {
    CONTROL_MOST = FIXED + MOST_ARGUMENTS,
    STACK_MOST = 262144,
    HEAP_MOST = 1048576,
    TRAIL_MOST = 262144
};

static inline uint32_t cell(uint32_t value, uint32_t tag)
{
    return value << VALUE_SHIFT | tag << TAG_SHIFT;
}

static inline uint32_t value_of(uint32_t word) { return word >> VALUE_SHIFT; }

static inline uint32_t tag_of(uint32_t word)
{
    return word >> TAG_SHIFT & TAG_MASK;
}

static inline uint32_t arity_of(uint32_t word)
{
    return value_of(word) % ARITY_END;
}

#endif
