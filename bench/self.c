/* The self-check: the peer once more, compiled under the prefix twin_, stands
   in the product's place. Its ratios show the noise of the measurement. */
#include "product.h"

peer_collected twin_collect(uint32_t *control, size_t control_len,
                            uint32_t *stack, size_t stack_len,
                            uint32_t *heap, size_t heap_len,
                            uint32_t *trail, size_t trail_len,
                            uint32_t *work, size_t work_len);

const char product_name[] = "twin";

peer_collected product_collect(uint32_t *control, size_t control_len,
                               uint32_t *stack, size_t stack_len,
                               uint32_t *heap, size_t heap_len,
                               uint32_t *trail, size_t trail_len,
                               uint32_t *work, size_t work_len)
{
    return twin_collect(control, control_len, stack, stack_len, heap, heap_len,
                        trail, trail_len, work, work_len);
}
