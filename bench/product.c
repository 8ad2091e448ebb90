/* The product, from its static library; or, compiled with BEFORE, an earlier one
   in the peer's place, its symbol renamed by the Makefile. */
#ifdef BEFORE
#define bik_collect before_collect
#define product_collect peer_collect
#define product_name peer_name
#define NAME "before"
#define SYMBOL "before_collect"
#else
#define NAME "product"
#define SYMBOL "bik_collect"
#endif

#include "product.h"

#include "../include/bikorashen.h"

const char product_name[] = NAME;

#ifdef FROM_MODULE
/* The module keeps x86-64's way to hand back a struct: through a pointer that
   comes before the parameters. */
bik_collected *module_collect(bik_collected *given, uint32_t *control,
                              size_t control_len, uint32_t *stack,
                              size_t stack_len, uint32_t *heap, size_t heap_len,
                              uint32_t *trail, size_t trail_len, uint32_t *work,
                              size_t work_len) __asm__(SYMBOL);

static bik_collected collect(uint32_t *control, size_t control_len,
                             uint32_t *stack, size_t stack_len, uint32_t *heap,
                             size_t heap_len, uint32_t *trail, size_t trail_len,
                             uint32_t *work, size_t work_len)
{
    bik_collected given;
    module_collect(&given, control, control_len, stack, stack_len, heap,
                   heap_len, trail, trail_len, work, work_len);
    return given;
}
#else
#define collect bik_collect
#endif

peer_collected product_collect(uint32_t *control, size_t control_len,
                               uint32_t *stack, size_t stack_len,
                               uint32_t *heap, size_t heap_len,
                               uint32_t *trail, size_t trail_len,
                               uint32_t *work, size_t work_len)
{
    const bik_collected given =
        collect(control, control_len, stack, stack_len, heap, heap_len, trail,
                trail_len, work, work_len);
    return (peer_collected){.refusal = given.refusal,
                            .area = given.area,
                            .index = given.index,
                            .cells_kept = given.cells_kept,
                            .cells_dropped = given.cells_dropped,
                            .entries_kept = given.entries_kept,
                            .entries_dropped = given.entries_dropped};
}
