/* What is measured against the peer: the product, or in the self-check a
   second compilation of the peer. */
#ifndef PRODUCT_H
#define PRODUCT_H

#include "peer.h"

extern const char product_name[];

peer_collected product_collect(uint32_t *control, size_t control_len,
                               uint32_t *stack, size_t stack_len,
                               uint32_t *heap, size_t heap_len,
                               uint32_t *trail, size_t trail_len,
                               uint32_t *work, size_t work_len);

#endif
