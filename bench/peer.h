/* The peer: a plain C collector of the same machine, with the same checks,
   the same answers and the same lent work words as the product. It is proved
   nowhere; it stands here to be measured against. */
#ifndef PEER_H
#define PEER_H

#include <stddef.h>
#include <stdint.h>

/* Where a refused image has its fault. Only refusals 3 to 7 and 17 name one;
   that of 3 may lie outside the stack. */
enum peer_area {
    PEER_NOWHERE = 0,
    PEER_HEAP = 1,
    PEER_STACK = 2,
    PEER_CONTROL = 3,
    PEER_TRAIL = 4
};

/* refusal 0 is accepted; a refusal has zero counts. */
typedef struct {
    uint32_t refusal, area;
    uint64_t index, cells_kept, cells_dropped, entries_kept, entries_dropped;
} peer_collected;

typedef struct {
    uint32_t refusal, area;
    uint64_t index, undone;
} peer_stepped;

extern const char peer_name[];

peer_collected peer_collect(uint32_t *control, size_t control_len,
                            uint32_t *stack, size_t stack_len,
                            uint32_t *heap, size_t heap_len,
                            uint32_t *trail, size_t trail_len,
                            uint32_t *work, size_t work_len);

peer_stepped peer_step_back(uint32_t *control, size_t control_len,
                            uint32_t *stack, size_t stack_len,
                            uint32_t *heap, size_t heap_len,
                            uint32_t *trail, size_t trail_len,
                            uint32_t *work, size_t work_len);

#endif
