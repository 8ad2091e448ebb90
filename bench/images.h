/* Large images, made in the program, the same at every run. */
#ifndef IMAGES_H
#define IMAGES_H

#include <stddef.h>
#include <stdint.h>

typedef struct {
    uint32_t *control, *stack, *heap, *trail;
    size_t control_len, stack_len, heap_len, trail_len;
} areas;

/* A kind fills areas that have room for the most words. Its image grows in step
   with size, which is at most HEAP_MOST. */
typedef struct {
    const char *name;
    void (*make)(areas *to, size_t size);
} kind;

/* A damage makes a sound image a refused one, its fault where a check comes
   last. */
typedef struct {
    const char *name;
    uint32_t refusal;
    void (*spoil)(areas *to);
} damage;

extern const kind kinds[];
extern const size_t kind_count;
extern const damage damages[];
extern const size_t damage_count;

/* The kinds; images_terms.c, images_lists.c and images_stack.c. */
void terms_1(areas *to, size_t size);
void terms_50(areas *to, size_t size);
void terms_99(areas *to, size_t size);
void terms_near(areas *to, size_t size);
void all_dead(areas *to, size_t size);
void list_rising(areas *to, size_t size);
void list_falling(areas *to, size_t size);
void list_zigzag(areas *to, size_t size);
void list_shuffled(areas *to, size_t size);
void list_and_structure(areas *to, size_t size);
void wide_structure(areas *to, size_t size);
void wide_structures(areas *to, size_t size);
void tariff_tables(areas *to, size_t size);
void shared_frames(areas *to, size_t size);
void full_trail(areas *to, size_t size);

#endif
