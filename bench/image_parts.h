/* What the makers of images share: words, chance, and an engine's pushes. */
#ifndef IMAGE_PARTS_H
#define IMAGE_PARTS_H

#include "images.h"
#include "machine.h"

static inline uint32_t functor(uint32_t name, uint32_t arity)
{
    return cell(name * ARITY_END + arity, CONST);
}

/* The word at an address. */
static inline uint32_t *word_at(const areas *in, uint32_t address)
{
    return address < STACK_BASE ? in->heap + address
                                : in->stack + (address - STACK_BASE);
}

/* A number below end, from a generator that starts the same in every image. */
void restart_chance(void);
uint32_t chance(uint32_t end);

void shuffle(uint32_t *numbers, size_t count);

/* An empty image: no frame, no choice point, H = heap and T = trail lengths,
   every heap cell a constant, one saved argument in the control area. */
void start(areas *to, size_t cells, size_t entries);

/* Each pushes upon the newest of its chain, as an engine does. Answers the
   stack index of the first cell; the cells are constants. */
uint32_t push_frame(areas *to, uint32_t size);
uint32_t push_choice_point(areas *to, uint32_t arguments, uint32_t entries,
                           uint32_t cells);

/* Moves each trail entry on a functor's cell to the first argument. */
void leave_functors(areas *to);

/* The start of the kinds whose burden is the heap: frames with choice points
   between them, and a trail that names cells at random. */
void start_plain(areas *to, size_t cells);

#endif
