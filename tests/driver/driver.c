/* Serves the calls of the library over standard input and output, until the
   input ends. All numbers are little-endian.

   A request:  the call, 4 bytes: 1 collect, 2 step back, 3 look-up, 4 thaw,
               5 freeze, 6 record, 7 why held; 0 asks which of them are there
               the address, offset or heap index, 8 bytes
               for control, stack, heap, trail, work, room and the file or
               output: the length of the whole buffer, where its lent part
               begins and the length of that part, 4 bytes each, in words (the
               last of the seven in bytes); a buffer of length 0 is lent as NULL
               the seven whole buffers
   An answer:  seven fields of 8 bytes, those of the call's struct in order and
               0 after the last; to call 0, bit n stands for call n
               the seven whole buffers as the call left them

   Anything else, a call that is not there and a cut request end the program
   with a line on standard error and status 1. */
#include <stdio.h>
#include <stdlib.h>
#include <string.h>
#include <unistd.h>

#include "serve.h"

/* Words are sent as they lie in memory. */
_Static_assert(__BYTE_ORDER__ == __ORDER_LITTLE_ENDIAN__, "byte order");

/* More than any area of the document; what is longer is no honest request. */
enum { MOST = 1 << 24, INPUT_BYTES = 1 << 16, OUTPUT_BYTES = 1 << 18 };

typedef struct {
    uint32_t all, offset, length;
} part;

static void fail(const char *why)
{
    fprintf(stderr, "driver: %s\n", why);
    exit(1);
}

/* The answers are sent before the driver waits for more: the other side may be
   waiting for them too. */
static size_t read_some(void *to, size_t most)
{
    if (fflush(stdout))
        fail("the output is closed");
    const ssize_t count = read(STDIN_FILENO, to, most);
    if (count < 0)
        fail("the input cannot be read");
    return (size_t)count;
}

/* Takes count bytes from the input; 0 if it ends before the first of them. */
static int take(void *to, size_t count)
{
    static unsigned char buffer[INPUT_BYTES];
    static size_t next, end;
    unsigned char *place = to;
    size_t taken = 0;
    while (taken < count) {
        if (next == end) {
            next = 0;
            end = read_some(buffer, sizeof buffer);
            if (end == 0 && taken == 0)
                return 0;
            if (end == 0)
                fail("the input ends inside a request");
        }
        const size_t left = count - taken, here = end - next;
        const size_t some = left < here ? left : here;
        memcpy(place + taken, buffer + next, some);
        taken += some;
        next += some;
    }
    return 1;
}

static void must_take(void *to, size_t count)
{
    if (!take(to, count) && count)
        fail("the input ends inside a request");
}

static void give(const void *from, size_t count)
{
    if (count && fwrite(from, count, 1, stdout) != 1)
        fail("the output is closed");
}

static size_t bytes_of(int buffer, size_t length)
{
    return buffer == BYTES ? length : length * sizeof(uint32_t);
}

/* Room for all buffers of a request; the bytes come last, so that all words
   are aligned. Kept from request to request, and it only grows. */
static unsigned char *room_for(size_t size)
{
    static unsigned char *room;
    static size_t room_size;
    if (size > room_size) {
        free(room);
        room = malloc(size);
        room_size = size;
        if (!room)
            fail("no memory");
    }
    return room;
}

/* Reads the buffers and says where the lent parts are. Answers how many bytes
   there are in all of them, from *room on. */
static size_t take_buffers(lent *given, unsigned char **room)
{
    part parts[BUFFERS];
    must_take(parts, sizeof parts);
    size_t size = 0, start = 0;
    for (int i = 0; i < BUFFERS; i++) {
        if (parts[i].all > MOST || parts[i].offset > parts[i].all ||
            parts[i].length > parts[i].all - parts[i].offset)
            fail("a part is not inside its buffer");
        size += bytes_of(i, parts[i].all);
    }
    *room = room_for(size + 1); /* some room even if nothing is sent */
    for (int i = 0; i < BUFFERS; i++) {
        unsigned char *const here = *room + start + bytes_of(i, parts[i].offset);
        unsigned char *const lent_part = parts[i].all ? here : NULL;
        if (i == BYTES)
            given->bytes = lent_part;
        else
            given->words[i] = (uint32_t *)(void *)lent_part;
        given->length[i] = parts[i].length;
        start += bytes_of(i, parts[i].all);
    }
    must_take(*room, size);
    return size;
}

static void serve(uint32_t call)
{
    lent given;
    uint64_t fields[FIELDS] = {0};
    unsigned char *room;
    must_take(&given.number, sizeof given.number);
    const size_t size = take_buffers(&given, &room);
    service *asked = service_of(call);
    if (call == 0)
        fields[0] = calls_there();
    else if (asked)
        asked(&given, fields);
    else
        fail("a call that is not there");
    give(fields, sizeof fields);
    give(room, size);
}

int main(void)
{
    static char output[OUTPUT_BYTES];
    uint32_t call;
    setvbuf(stdout, output, _IOFBF, sizeof output);
    while (take(&call, sizeof call))
        serve(call);
    return 0;
}
