/* A plain stand-in for the library's look-up, record, thaw and freeze. With the
   collector of bench/peer.c it makes a whole library that is proved nowhere: it
   stands here so that the driver and the comparison can themselves be tested,
   with and without faults. */
#include "../../include/bikorashen.h"

enum { AREAS = 4, FIXED = 7, T = 4, H = 5, N = 6 };
enum { HEAP_MOST = 1048576, STACK_MOST = 262144, TRAIL_MOST = 262144 };
enum { CONTROL_MOST = 262, STACK_BASE = 134217728, IN_HEAP = 1, IN_STACK = 2 };
enum { KIND_COUNTS = 1, KIND_CONTROL = 2, KIND_END = 6, UNUSED = 255 };

static const uint8_t body_lengths[] = {UNUSED, 16, 4, 4, 4, 4, 0};

bik_part bik_look_up(const uint32_t *heap, size_t heap_len,
                     const uint32_t *stack, size_t stack_len, uint32_t address)
{
    (void)heap, (void)stack;
    if (address < STACK_BASE && address < heap_len)
        return (bik_part){IN_HEAP, address, heap_len - address};
    const uint32_t index = address - STACK_BASE;
    if (address >= STACK_BASE && index < stack_len)
        return (bik_part){IN_STACK, index, stack_len - index};
    return (bik_part){IN_HEAP, 0, 0};
}

bik_record bik_record_at(const uint8_t *file, size_t file_len, uint64_t offset)
{
    if (offset >= file_len)
        return (bik_record){.refusal = 10, .offset = file_len};
    const uint32_t kind = file[offset];
    if (kind == 0 || kind > KIND_END)
        return (bik_record){.refusal = 11, .offset = offset};
    const uint64_t body = offset + 1, length = body_lengths[kind];
    if (file_len - body < length)
        return (bik_record){.refusal = 10, .offset = offset};
    return (bik_record){.kind = kind, .body = body, .next = body + length};
}

static bik_record expected_at(const uint8_t *file, size_t file_len,
                              uint64_t offset, uint32_t kind)
{
    if (offset < file_len && file[offset] != kind)
        return (bik_record){.refusal = 11, .offset = offset};
    return bik_record_at(file, file_len, offset);
}

static uint32_t number_at(const uint8_t *at)
{
    return at[0] | (uint32_t)at[1] << 8 | (uint32_t)at[2] << 16 |
           (uint32_t)at[3] << 24;
}

static uint8_t *put_number(uint8_t *at, uint32_t number)
{
    for (int i = 0; i < 4; i++)
        *at++ = (uint8_t)(number >> 8 * i);
    return at;
}

static int bad_sizes(const size_t *length)
{
    return length[0] < FIXED || length[0] > CONTROL_MOST ||
           length[1] > STACK_MOST || length[2] > HEAP_MOST ||
           length[3] > TRAIL_MOST;
}

/* The refusal of the words that follow the counts, or 0. */
static bik_record check_words(const uint8_t *file, size_t file_len,
                              const uint32_t *counts)
{
    uint64_t offset = 1 + body_lengths[KIND_COUNTS];
    bik_record found;
    for (uint32_t area = 0; area < AREAS; area++)
        for (uint32_t i = 0; i < counts[area]; i++) {
            found = expected_at(file, file_len, offset, KIND_CONTROL + area);
            if (found.refusal)
                return found;
            offset = found.next;
        }
    found = expected_at(file, file_len, offset, KIND_END);
    if (!found.refusal && found.next < file_len)
        return (bik_record){.refusal = 13, .offset = found.next};
    return found;
}

static int counts_differ(const uint8_t *file, const uint32_t *counts)
{
    const uint8_t *control = file + 2 + body_lengths[KIND_COUNTS];
    return counts[0] < FIXED ||
           counts[0] != (uint64_t)FIXED + number_at(control + 5 * N) ||
           counts[2] != number_at(control + 5 * H) ||
           counts[3] != number_at(control + 5 * T);
}

bik_thawed bik_thaw(const uint8_t *file, size_t file_len, uint32_t *control,
                    size_t control_len, uint32_t *stack, size_t stack_len,
                    uint32_t *heap, size_t heap_len, uint32_t *trail,
                    size_t trail_len)
{
    uint32_t *const areas[AREAS] = {control, stack, heap, trail};
    const size_t length[AREAS] = {control_len, stack_len, heap_len, trail_len};
    uint32_t counts[AREAS];
    if (bad_sizes(length))
        return (bik_thawed){.refusal = 1};
    bik_record found = expected_at(file, file_len, 0, KIND_COUNTS);
    if (found.refusal)
        return (bik_thawed){.refusal = found.refusal, .offset = found.offset};
    for (int i = 0; i < AREAS; i++)
        counts[i] = number_at(file + 1 + 4 * i);
    for (int i = 0; i < AREAS; i++)
        if (counts[i] > length[i])
            return (bik_thawed){.refusal = 12};
    found = check_words(file, file_len, counts);
    if (found.refusal)
        return (bik_thawed){.refusal = found.refusal, .offset = found.offset};
    if (counts_differ(file, counts))
        return (bik_thawed){.refusal = 14};
    const uint8_t *at = file + 2 + body_lengths[KIND_COUNTS];
    for (int area = 0; area < AREAS; area++)
        for (uint32_t i = 0; i < counts[area]; i++, at += 5)
            areas[area][i] = number_at(at);
    return (bik_thawed){0, 0, counts[0], counts[1], counts[2], counts[3]};
}

bik_frozen bik_freeze(const uint32_t *control, size_t control_len,
                      const uint32_t *stack, size_t stack_len,
                      const uint32_t *heap, size_t heap_len,
                      const uint32_t *trail, size_t trail_len, uint8_t *output,
                      size_t output_len)
{
    const uint32_t *const areas[AREAS] = {control, stack, heap, trail};
    const size_t length[AREAS] = {control_len, stack_len, heap_len, trail_len};
    if (bad_sizes(length))
        return (bik_frozen){.refusal = 1};
    const uint64_t counts[AREAS] = {(uint64_t)FIXED + control[N], stack_len,
                                    control[H], control[T]};
    uint64_t words = 0;
    for (int area = 0; area < AREAS; area++) {
        if (counts[area] > length[area])
            return (bik_frozen){.refusal = 2};
        words += counts[area];
    }
    const uint64_t bytes = 2 + body_lengths[KIND_COUNTS] + 5 * words;
    if (bytes > output_len)
        return (bik_frozen){.refusal = 15};
    *output++ = KIND_COUNTS;
    for (int area = 0; area < AREAS; area++)
        output = put_number(output, (uint32_t)counts[area]);
    for (int area = 0; area < AREAS; area++)
        for (uint64_t i = 0; i < counts[area]; i++) {
            *output++ = (uint8_t)(KIND_CONTROL + area);
            output = put_number(output, areas[area][i]);
        }
    *output = KIND_END;
    return (bik_frozen){0, bytes};
}
